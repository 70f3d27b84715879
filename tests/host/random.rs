//! Random numbers from a seed, and random entries that a log may well accept.

// A program that uses this module need not use all of it.
#![allow(dead_code)]

use crate::plain_log::{Entry, Limit, Log, Vote, SMALL};

/// splitmix64
pub struct Random(pub u64);

impl Random {
    pub fn next(&mut self) -> u64 {
        self.0 = self.0.wrapping_add(0x9e37_79b9_7f4a_7c15);
        let mut z = self.0;
        z = (z ^ z >> 30).wrapping_mul(0xbf58_476d_1ce4_e5b9);
        z = (z ^ z >> 27).wrapping_mul(0x94d0_49bb_1331_11eb);
        z ^ z >> 31
    }

    pub fn below(&mut self, n: usize) -> usize {
        (self.next() % n as u64) as usize
    }

    /// True once in n.
    pub fn once_in(&mut self, n: usize) -> bool {
        self.below(n) == 0
    }

    pub fn pick<T: Copy>(&mut self, of: &[T]) -> T {
        of[self.below(of.len())]
    }

    pub fn bytes(&mut self, n: usize) -> Vec<u8> {
        (0..n).map(|_| self.next() as u8).collect()
    }
}

/// Lists that the votes of a transaction use, so that many agree.
fn list_of(r: &mut Random, tx: u8, limit: Limit) -> u8 {
    const LISTS: [u8; 8] = [0x03, 0x01, 0x07, 0xff, 0x18, 0x82, 0x0f, 0x41];
    const SMALL_LISTS: [u8; 8] = [0x03, 0x01, 0x07, 0x06, 0x02, 0x05, 0x07, 0x04];
    if r.once_in(8) {
        return r.next() as u8 & limit.list();
    }
    let lists = if limit == SMALL { SMALL_LISTS } else { LISTS };
    lists[tx as usize % 8]
}

/// An update whose low half, high half or both are set, or one at a border.
pub fn update(r: &mut Random) -> u64 {
    const BORDERS: [u64; 6] = [0, 1, u32::MAX as u64, 1 << 32, 1 << 63, u64::MAX];
    let number = r.next();
    match r.below(4) {
        0 => number >> 32,
        1 => number >> 32 << 32,
        2 => number,
        _ => r.pick(&BORDERS),
    }
}

/// The turn, or at times another one.
fn turn_near(r: &mut Random, turn: u8) -> u8 {
    match r.below(24) {
        0 => turn.saturating_add(1),
        1 => turn.saturating_sub(1).max(1),
        2 => r.pick(&[1, 2, 254, 255]),
        _ => turn.max(1),
    }
}

/// An entry within the log's limits that it may well accept.
pub fn sensible(r: &mut Random, log: &Log) -> Entry {
    let Limit { stores, transactions } = log.limit;
    let tx = r.below(transactions as usize) as u8;
    let list = list_of(r, tx, log.limit);
    let mut store = r.below(stores as usize) as u8;
    while list >> store & 1 == 0 && !r.once_in(8) {
        store = (store + 1) % stores;
    }
    if r.once_in(6) || log.holder(store) == 0 {
        let own_again = r.once_in(3) && log.holder(store) != 0;
        let process = if own_again { log.holder(store) } else { r.below(15) as u8 + 1 };
        let last = log.last_turn(process);
        let turn = if r.once_in(2) { last.saturating_add(1) } else { last };
        return Entry::Take { process, store, turn: turn_near(r, turn) };
    }
    let commit = !r.once_in(8);
    let by = if commit { store } else { r.below(stores as usize) as u8 };
    let held_by = log.holder(by);
    Entry::Vote(Vote {
        process: if held_by == 0 { r.below(15) as u8 + 1 } else { held_by },
        by,
        store,
        tx,
        list,
        commit,
        turn: turn_near(r, log.holder_turn(by)),
        update: if commit { update(r) } else { 0 },
    })
}

/// Entries that a log of the limit accepts in turn.
pub struct History {
    pub limit: Limit,
    pub entries: Vec<Entry>,
}

impl History {
    pub fn grown(r: &mut Random, limit: Limit) -> History {
        let length = r.pick(&[3, 20, 60, 120, 400]);
        let (mut log, mut entries) = (Log::open(limit), Vec::new());
        for _ in 0..length * 4 {
            let e = sensible(r, &log);
            if log.enter(&e) == 0 {
                entries.push(e);
            }
            if entries.len() == length {
                break;
            }
        }
        History { limit, entries }
    }

    /// The log after the first n entries, with its own limit or a larger one.
    pub fn log(&self, n: usize, limit: Limit) -> Log {
        let mut log = Log::open(limit);
        for e in &self.entries[..n] {
            log.enter(e);
        }
        log
    }
}
