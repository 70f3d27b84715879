//! Step files, for the programs in plain Rust: lines and fields read, answers and a log printed.

use super::plain_log::{Entry, Log, Vote, STORES, TRANSACTIONS};
use std::io::{Read, Write};
use std::ops::RangeInclusive;

pub const LINES: usize = 1000;
const BYTES: usize = 100;
pub const TURN: &[u8] = b" turn=";
pub const TURNS: RangeInclusive<u64> = 1..=255;

/// The rest of a line that is being read, and whether a number was outside its limits.
pub struct Fields<'a> {
    rest: &'a [u8],
    pub outside: bool,
}

impl<'a> Fields<'a> {
    fn key(&mut self, key: &[u8]) -> Option<()> {
        self.rest = self.rest.strip_prefix(key)?;
        Some(())
    }

    pub fn decimal(&mut self, key: &[u8], limits: RangeInclusive<u64>) -> Option<u8> {
        self.key(key)?;
        let n = self.rest.iter().take_while(|c| c.is_ascii_digit()).count();
        let (digits, rest) = self.rest.split_at(n);
        if n == 0 || n > 1 && digits[0] == b'0' {
            return None;
        }
        let add = |v: u64, c: &u8| v.saturating_mul(10).saturating_add((c - b'0') as u64);
        let value = digits.iter().fold(0u64, add);
        self.rest = rest;
        self.outside |= !limits.contains(&value);
        Some(value as u8)
    }

    /// The number of a turn, 1 where the field is not there.
    fn turn(&mut self) -> Option<u8> {
        if !self.rest.starts_with(TURN) {
            return Some(1);
        }
        self.decimal(TURN, TURNS)
    }

    fn hex(&mut self, key: &[u8], counts: &[usize]) -> Option<u64> {
        self.key(key)?;
        let (mut value, mut count) = (0, 0);
        for c in self.rest {
            let digit = match c {
                b'0'..=b'9' => c - b'0',
                b'a'..=b'f' => c - b'a' + 10,
                _ => break,
            };
            value = value << 4 | digit as u64;
            count += 1;
        }
        self.rest = &self.rest[count..];
        counts.contains(&count).then_some(value)
    }

    pub fn word<T: Copy>(&mut self, key: &[u8], words: &[(&[u8], T)]) -> Option<T> {
        self.key(key)?;
        let (word, value) = words.iter().find(|(word, _)| self.rest.starts_with(word))?;
        self.rest = &self.rest[word.len()..];
        Some(*value)
    }

    pub fn take(&mut self) -> Option<Entry> {
        let (process, turn) = (self.decimal(b" proc=", 1..=15)?, self.turn()?);
        Some(Entry::Take { process, store: self.decimal(b" store=", 0..=7)?, turn })
    }

    pub fn vote(&mut self) -> Option<Entry> {
        let (process, turn) = (self.decimal(b" proc=", 1..=15)?, self.turn()?);
        Some(Entry::Vote(Vote {
            process,
            turn,
            by: self.decimal(b" by=", 0..=7)?,
            store: self.decimal(b" store=", 0..=7)?,
            tx: self.decimal(b" tx=", 0..=31)?,
            list: self.hex(b" list=", &[2])? as u8,
            commit: self.word(b" say=", &[(b"commit", true), (b"abort", false)])?,
            update: self.hex(b" upd=", &[16, 8])?,
        }))
    }
}

/// The step of a line as `read` finds it, or refusal 1 or 2.
pub fn step<T>(line: &[u8], read: impl FnOnce(&mut Fields) -> Option<T>) -> Result<T, u32> {
    if line.len() > BYTES {
        return Err(1);
    }
    let mut fields = Fields { rest: line, outside: false };
    let step = read(&mut fields).ok_or(1u32)?;
    match fields {
        Fields { rest: [], outside: false } => Ok(step),
        Fields { rest: [], .. } => Err(2),
        _ => Err(1),
    }
}

/// The lines that are read, and line 1,001, each with its index.
pub fn each_line(input: &[u8], mut take: impl FnMut(usize, &[u8])) {
    if input.is_empty() {
        return;
    }
    let body = input.strip_suffix(b"\n").unwrap_or(input);
    for (i, line) in body.split(|&c| c == b'\n').take(LINES + 1).enumerate() {
        take(i, line);
    }
}

/// Prints the answer of each line.
pub fn answers(input: &[u8], out: &mut Vec<u8>, mut answer: impl FnMut(&[u8]) -> u32) {
    each_line(input, |i, line| {
        let answer = if i == LINES { 6 } else { answer(line) };
        writeln!(out, "step={} answer={}", i + 1, answer).unwrap();
    });
}

/// Group, tx and update.
pub type Row = (u8, u8, u64);

pub fn print_rows(out: &mut Vec<u8>, store: u8, rows: &[Row]) {
    for (group, tx, update) in rows {
        writeln!(out, "store={store} group={group} tx={tx} upd={update:016x}").unwrap();
    }
}

pub fn print_log(out: &mut Vec<u8>, log: &Log) {
    for tx in (0..TRANSACTIONS as u8).filter(|&tx| log.has_vote(tx)) {
        writeln!(out, "tx={} outcome={} group={}", tx, log.outcome(tx).word(), log.group(tx))
            .unwrap();
    }
    for store in (0..STORES as u8).filter(|&s| log.holder(s) != 0) {
        writeln!(out, "store={} holder={}", store, log.holder(store)).unwrap();
    }
    let committed = (0..TRANSACTIONS as u8).any(|tx| log.group(tx) != 0);
    for store in (0..STORES as u8).filter(|_| committed) {
        print_rows(out, store, &log.replay(store));
    }
}

/// Standard input read whole, and what `run` prints of it written at once.
pub fn program(run: impl FnOnce(&[u8], &mut Vec<u8>)) {
    let mut input = Vec::new();
    std::io::stdin().read_to_end(&mut input).unwrap();
    let mut out = Vec::with_capacity(32 * LINES);
    run(&input, &mut out);
    std::io::stdout().write_all(&out).unwrap();
}
