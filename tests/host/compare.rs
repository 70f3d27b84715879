//! Random calls of the library beside the Rust implementation: answers and both buffers must be
//! equal. What a call with the small limit is answered, and what it writes, must be the same with
//! the full one, unless it is 2. Prints how often each answer occurred with each limit, and fails
//! if one that can occur never did.

mod library;
mod longest;
mod plain_log;
mod random;

use plain_log::{
    answer, log_behind, Entry, Limit, Log, Numbers, Vote, FULL, PROCESSES, RECORD, ROW, SMALL,
    STORES, TURN, TURNS,
};
use random::{sensible, update, History, Random};

const CALLS: usize = 200_000;
const HISTORIES: usize = 300;
const ANSWERS: usize = 13;
/// Where a record has its list.
const LIST: usize = 5;
const FULL_STORES: u32 = FULL.stores as u32;
const SMALL_STORES: u32 = SMALL.stores as u32;
/// Limits that are neither; of some the low byte is one.
const WRONG_STORES: [u32; 10] = [0, 1, 2, 4, 7, 9, 259, 264, 1 << 31, u32::MAX];

/// One fault in the records.
fn damage(r: &mut Random, bytes: &mut [u8], h: &History) {
    let n = bytes.len() / RECORD;
    if n == 0 {
        return;
    }
    let at = r.below(n) * RECORD;
    match r.below(7) {
        0 => bytes[at + r.below(RECORD)] ^= 1 << r.below(8),
        1 => bytes[at + r.below(RECORD)] = r.next() as u8,
        2 => {
            let from = r.below(n) * RECORD;
            bytes.copy_within(from..from + RECORD, at);
        }
        3 => {
            let other = r.below(n) * RECORD;
            for i in 0..RECORD {
                bytes.swap(at + i, other + i);
            }
        }
        4 => {
            let (upto, limit) = (r.below(n + 1), r.pick(&[h.limit, FULL]));
            let e = sensible(r, &h.log(upto, limit));
            bytes[at..at + RECORD].copy_from_slice(&e.to_record());
        }
        5 => bytes[at + TURN] = r.pick(&[0, 1, 2, 3, 127, 128, 254, 255]),
        _ => {
            let field = r.pick(&[1, 2, 3, 4, 5, 6]);
            bytes[at + field] = r.pick(&[0, 1, 2, 3, 7, 8, 15, 16, 31, 32, 255]);
        }
    }
}

/// Turn 1 as version 2 of the header wrote it: in all records, or in some.
fn as_zeros(r: &mut Random, bytes: &mut [u8]) {
    let all = r.once_in(2);
    for record in bytes.chunks_exact_mut(RECORD) {
        if record[TURN] == 1 && (all || r.once_in(2)) {
            record[TURN] = 0;
        }
    }
}

/// A count: mostly the right one, at times one more or less, or one whose bytes wrap a usize.
fn count_for(r: &mut Random, right: usize, len: usize) -> usize {
    const WRAPS: usize = usize::MAX / RECORD + 1;
    match r.below(40) {
        0 => right.saturating_sub(1),
        1 => len / RECORD,
        2 => len / RECORD + 1,
        3 => r.pick(&[usize::MAX, usize::MAX - 1, usize::MAX / 2, 1 << 63, 1 << 32]),
        4 => usize::MAX / RECORD - r.below(3),
        5 => WRAPS + r.below(right + 2),
        6 => WRAPS * 2 + r.below(right + 2),
        _ => right,
    }
}

fn numbers_for(r: &mut Random, log: &Log) -> Numbers {
    let mut n = sensible(r, log).numbers();
    if n.first[TURN] == 1 && r.once_in(2) {
        n.first[TURN] = 0;
    }
    if n.first[LIST] != 0 && r.once_in(4) {
        n.first[LIST] |= 1 << r.below(STORES);
    }
    if r.once_in(2) {
        let field = r.below(9);
        let Some(number) = n.first.get_mut(field) else {
            n.update = update(r);
            return n;
        };
        *number = match r.below(4) {
            0 => r.pick(&[0, 1, 2, 3, 7, 8, 15, 16, 31, 32, 255]),
            1 => r.pick(&[256, 257, 512, 65536, 1 << 31, u32::MAX]),
            2 => number.wrapping_add(256),
            _ => r.below(40) as u32,
        };
    }
    n
}

/// A number of a query: mostly one below n.
fn number_for(r: &mut Random, n: u8) -> u32 {
    let limit = n as u32;
    match r.below(12) {
        0 => r.pick(&[limit, limit + 1, 255, 256, 256 + limit / 2, 1 << 31, u32::MAX]),
        _ => r.below(n as usize) as u32,
    }
}

/// The limit of a call: mostly the log's own, at times one of the two, or a wrong one.
fn stores_for(r: &mut Random, limit: Limit) -> u32 {
    match r.below(40) {
        0 => r.pick(&WRONG_STORES),
        1..=6 => r.pick(&[FULL_STORES, SMALL_STORES]),
        _ => limit.stores as u32,
    }
}

/// How often each call had each answer.
type Answers = [[usize; ANSWERS]; 4];

/// What decides a call that has one of the two limits: its count, its records, or its own numbers
/// and place.
const PARTS: usize = 3;

/// Prints how often the call had these answers; false if one that is expected never occurred, or
/// another one did.
fn print_answers(call: usize, by: &str, seen: &Answers, expected: &[usize]) -> bool {
    let (mut whole, mut answers) = (true, String::new());
    for (a, &n) in seen[call].iter().enumerate() {
        if n > 0 || expected.contains(&a) {
            answers += &format!("  {a}: {n}");
        }
        whole &= (n > 0) == expected.contains(&a);
    }
    if !answers.is_empty() {
        println!("{:<11} decided by {by:<7}{answers}", CALL_NAMES[call]);
    }
    whole
}

/// The same for each call and what decides it; `own` is of a new entry and of a query.
fn print_parts(
    seen: &[Answers; PARTS],
    count: &[usize],
    records: &[usize],
    own: [&[usize]; 2],
) -> bool {
    let mut whole = true;
    for call in 0..4 {
        whole &= print_answers(call, "count", &seen[0], count);
        whole &= print_answers(call, "records", &seen[1], records);
        whole &= print_answers(call, "own", &seen[2], own[(call > 0) as usize]);
    }
    whole
}

/// The calls of one limit.
#[derive(Default)]
struct Seen {
    /// By what decides.
    parts: [Answers; PARTS],
    outcomes: [usize; 3],
    involvements: [usize; 3],
    /// Answers of no about a store that a kept abort lists.
    outweighed: usize,
    /// Replays without and with rows, and the most rows of one.
    rows: [usize; 3],
    /// Rows by the halves of their update that are not 0: none, the low, the high, both.
    halves: [usize; 4],
    /// New entries with an update of a high half alone, by their answer.
    high_alone: [usize; ANSWERS],
    /// New entries by the kind that they have and their turn, and by their answer.
    turns: [[[usize; ANSWERS]; TURN_NAMES.len()]; 2],
    /// Calls with a lent record whose turn is 0 and that answered 0.
    zeros: usize,
}

const TURN_NAMES: [&str; 5] = ["0", "1", "2 to 254", "255", "above 255"];

const CALL_NAMES: [&str; 4] = ["add", "outcome", "involvement", "replay"];

impl Seen {
    /// What a call came to whose records are all accepted.
    fn note_values(&mut self, call: usize, c: &Call, log: &Log, of: &Asked, came: &Came) {
        if call == 0 {
            self.note_entry(&of.entry, came.answer);
        }
        if came.answer != 0 {
            return;
        }
        let mut lent = c.records.chunks_exact(RECORD).take(c.count);
        self.zeros += lent.any(|record| record[TURN] == 0) as usize;
        match call {
            1 => self.outcomes[came.out[0] as usize] += 1,
            2 => self.note_involvement(log, of.tx, of.store, came.out[0]),
            3 => self.note_replay(&came.out),
            _ => {}
        }
    }

    /// A new entry.
    fn note_entry(&mut self, n: &Numbers, answer: u32) {
        if n.update != 0 && n.update as u32 == 0 {
            self.high_alone[answer as usize] += 1;
        }
        let turn = match n.first[TURN] {
            0 => 0,
            1 => 1,
            2..=254 => 2,
            255 => 3,
            _ => 4,
        };
        if let Some(turns) = self.turns.get_mut(n.first[0] as usize) {
            turns[turn][answer as usize] += 1;
        }
    }

    fn note_involvement(&mut self, log: &Log, tx: u32, store: u32, involved: u8) {
        self.involvements[involved as usize] += 1;
        let mut kept = (0..STORES as u8).filter_map(|s| log.kept(tx as u8, s));
        let listed = kept.any(|v| v.list >> store & 1 == 1);
        self.outweighed += (involved == 0 && listed) as usize;
    }

    fn note_replay(&mut self, out: &[u8]) {
        let rows = out[0] as usize;
        self.rows[(rows > 0) as usize] += 1;
        self.rows[2] = self.rows[2].max(rows);
        for row in out[1..].chunks_exact(ROW).take(rows) {
            let [low, high] = [&row[2..6], &row[6..]].map(|half| half != [0; 4]);
            self.halves[low as usize + 2 * high as usize] += 1;
        }
    }

    fn print_and_judge(&self, limit: Limit) -> bool {
        println!("with {} stores:", limit.stores);
        let own = [&[0, 1, 2, 6, 7, 8, 9, 10, 11, 12][..], &[0, 2, 6]];
        let whole = print_parts(&self.parts, &[2], &[1, 2, 7, 8, 9, 10, 11, 12], own);
        whole & self.print_values(limit)
    }

    fn print_values(&self, limit: Limit) -> bool {
        println!(
            "outcomes open {}, commit {}, abort {}",
            self.outcomes[0], self.outcomes[1], self.outcomes[2]
        );
        let [no, yes, unknown] = self.involvements;
        println!("involvements no {no}, yes {yes}, unknown {unknown}");
        println!("involvements no, though an abort lists the store: {}", self.outweighed);
        let [none, some, most] = self.rows;
        println!("replays of no row {none}, of rows {some}, most rows {most}");
        let [zero, low, high, both] = self.halves;
        println!("updates of rows: 0 {zero}, low half {low}, high half {high}, both {both}");
        let [accepted, take, abort] = [0, 1, 7].map(|answer| self.high_alone[answer]);
        println!("new updates of a high half alone: accepted {accepted}, 1: {take}, 7: {abort}");
        let seen = [&self.outcomes[..], &self.involvements, &self.halves].concat();
        let must = [accepted, take, abort, self.zeros, self.outweighed];
        let whole = seen.iter().chain(&must).all(|&n| n > 0);
        println!("calls with a lent turn of 0, answered 0: {}", self.zeros);
        whole & (most > limit.transactions as usize / 4) & self.print_turns()
    }

    /// Within the limits there are accepted entries and ones of a wrong turn; beyond, none of
    /// either.
    fn print_turns(&self) -> bool {
        let mut whole = true;
        for (kind, turns) in ["takes", "votes"].iter().zip(&self.turns) {
            for (turn, seen) in TURN_NAMES.iter().zip(turns) {
                let [accepted, outside, wrong] = [0, 2, 12].map(|answer: usize| seen[answer]);
                println!("{kind} of turn {turn}: 0: {accepted}, 2: {outside}, 12: {wrong}");
                let within = *turn != "above 255";
                whole &= outside > 0 && (accepted > 0) == within && (wrong > 0) == within;
            }
        }
        whole
    }
}

/// All calls.
#[derive(Default)]
struct AllSeen {
    full: Seen,
    small: Seen,
    /// Calls of a wrong limit.
    wrong: Answers,
    /// Calls with the small limit that are 2 and would be something else with the full one: by what
    /// decides, and by that answer.
    only_small: [Answers; PARTS],
}

impl AllSeen {
    /// What was seen of the calls with this limit, if it is one of the two.
    fn of(&mut self, stores: u32) -> Option<&mut Seen> {
        match stores {
            FULL_STORES => Some(&mut self.full),
            SMALL_STORES => Some(&mut self.small),
            _ => None,
        }
    }

    fn note(&mut self, call: usize, c: &Call, of: &Asked, came: &Came) {
        let answer = came.answer as usize;
        let Some(seen) = self.of(c.stores) else {
            self.wrong[call][answer] += 1;
            return;
        };
        let log = log_behind(c.stores, &c.records, c.count);
        let beyond = c.count > c.records.len() / RECORD;
        let part = if beyond { 0 } else { 1 + log.is_ok() as usize };
        seen.parts[part][call][answer] += 1;
        if let Ok(log) = log {
            seen.note_values(call, c, &log, of, came);
        }
        if came.answer != came.with_full {
            self.only_small[part][call][came.with_full as usize] += 1;
        }
    }

    fn print_and_judge(&self) -> bool {
        let mut whole = self.full.print_and_judge(FULL) & self.small.print_and_judge(SMALL);
        println!("with a wrong limit:");
        for call in 0..4 {
            whole &= print_answers(call, "limit", &self.wrong, &[2]);
        }
        println!("2 with {} stores, and what it is with {}:", SMALL.stores, FULL.stores);
        let own = [&[0, 6, 7, 8, 9, 10, 11, 12][..], &[0, 6]];
        whole & print_parts(&self.only_small, &[], &[0, 1, 6, 7, 8, 9, 10, 11, 12], own)
    }
}

struct Call {
    stores: u32,
    records: Vec<u8>,
    count: usize,
    out: Vec<u8>,
}

impl Call {
    /// The call with that limit, on copies of its buffers: the answer, and both buffers after it.
    fn ran(
        &self,
        stores: u32,
        call: impl Fn(u32, &mut [u8], &mut [u8]) -> u32,
    ) -> (u32, Vec<u8>, Vec<u8>) {
        let (mut records, mut out) = (self.records.clone(), self.out.clone());
        (call(stores, &mut records, &mut out), records, out)
    }
}

/// What a call came to, and what the library answers to the same call with the full limit, if its
/// own is the small one.
struct Came {
    answer: u32,
    with_full: u32,
    out: Vec<u8>,
}

/// The call by both.
fn both(
    c: &Call,
    library: impl Fn(u32, &mut [u8], &mut [u8]) -> u32,
    plain: impl Fn(u32, &mut [u8], &mut [u8]) -> u32,
) -> Came {
    let about = || format!("limit {}, {} records of {:?}", c.stores, c.count, c.records);
    let ran = c.ran(c.stores, &library);
    assert_eq!(ran, c.ran(c.stores, plain), "{}", about());
    let full = if c.stores == SMALL_STORES { c.ran(FULL_STORES, &library) } else { ran.clone() };
    let (answer, records, out) = &ran;
    assert!(*answer == 0 || *records == c.records && *out == c.out, "a refusal changed a buffer");
    assert!(*answer == answer::OUTSIDE || ran == full, "other with the full limit: {}", about());
    Came { answer: *answer, with_full: full.0, out: ran.2 }
}

/// The numbers of a query, and a new entry.
struct Asked {
    tx: u32,
    store: u32,
    entry: Numbers,
}

/// The call by the library and by the Rust implementation.
fn asked(call: usize, c: &Call, of: &Asked) -> Came {
    let (n, tx, store, entry) = (c.count, of.tx, of.store, &of.entry);
    match call {
        0 => both(
            c,
            |limit, b, _| library::add(limit, b, n, entry),
            |limit, b, _| plain_log::add(limit, b, n, entry),
        ),
        1 => both(
            c,
            |limit, b, o| library::outcome(limit, b, n, tx, o),
            |limit, b, o| plain_log::outcome(limit, b, n, tx, o),
        ),
        2 => both(
            c,
            |limit, b, o| library::involvement(limit, b, n, tx, store, o),
            |limit, b, o| plain_log::involvement(limit, b, n, tx, store, o),
        ),
        _ => both(
            c,
            |limit, b, o| library::replay(limit, b, n, store, o),
            |limit, b, o| plain_log::replay(limit, b, n, store, o),
        ),
    }
}

/// Records of the history, at times damaged, with a limit and a second buffer; and how many of them
/// are the history's.
fn call_on(r: &mut Random, h: &History) -> (Call, usize) {
    let k = r.below(h.entries.len() + 1);
    let mut records: Vec<u8> = h.entries[..k].iter().flat_map(|e| e.to_record()).collect();
    if r.once_in(3) {
        for _ in 0..=r.below(2) {
            damage(r, &mut records, h);
        }
    }
    if r.once_in(2) {
        as_zeros(r, &mut records);
    }
    let tail = r.pick(&[0, 1, RECORD - 1, RECORD, RECORD, RECORD, RECORD + 1, 2 * RECORD, 50]);
    records.extend(r.bytes(tail));
    let count = count_for(r, k, records.len());
    let rows = r.pick(&[0, 0, 1, 2, 3, FULL.transactions as usize]);
    let out_len = (1 + rows * ROW + r.below(3)).saturating_sub(1);
    (Call { stores: stores_for(r, h.limit), records, count, out: r.bytes(out_len) }, k)
}

fn one(r: &mut Random, histories: &[History], all: &mut AllSeen) {
    let h = &histories[r.below(histories.len())];
    let (c, k) = call_on(r, h);
    let call = r.pick(&[0, 0, 1, 2, 3]);
    let near = Limit::of(c.stores).unwrap_or(h.limit);
    let (tx, store) = (number_for(r, near.transactions), number_for(r, near.stores));
    let limit = if r.once_in(8) { FULL } else { h.limit };
    let of = Asked { tx, store, entry: numbers_for(r, &h.log(k, limit)) };
    all.note(call, &c, &of, &asked(call, &c, &of));
}

/// The library accepts all these entries, one after the other, and stores them as they are.
fn accepts_all(entries: &[Entry], limit: Limit) -> Vec<u8> {
    let (stores, mut records) = (limit.stores as u32, vec![0xee; entries.len() * RECORD]);
    for (count, e) in entries.iter().enumerate() {
        let answer = library::add(stores, &mut records, count, &e.numbers());
        assert_eq!(answer, 0, "entry {count}: {e:?}");
    }
    let expected: Vec<u8> = entries.iter().flat_map(|e| e.to_record()).collect();
    assert!(records == expected, "other records than the entries");
    records
}

/// As many entries as a log accepts: behind them every other one is refused, and not for want of
/// place. The library is asked some of these.
fn longest_lists(r: &mut Random, limit: Limit) {
    accepts_all(&longest::longest_of_turn_1_in(limit), limit);
    let entries = longest::longest_in(limit);
    let (stores, count) = (limit.stores as u32, entries.len());
    let mut records = accepts_all(&entries, limit);
    let log = log_behind(stores, &records, count).expect("the log");
    let mut refused = |e: Entry, r: &mut Random| {
        let answer = log.clone().enter(&e);
        assert!(answer != 0, "a log of {count} entries accepts {e:?}");
        if r.once_in(200) {
            assert_eq!(library::add(stores, &mut records, count, &e.numbers()), answer, "{e:?}");
        }
    };
    for process in 1..=PROCESSES {
        for store in 0..limit.stores {
            for turn in 1..=TURNS {
                refused(Entry::Take { process, store, turn }, r);
            }
        }
    }
    for tx in 0..limit.transactions {
        for store in 0..limit.stores {
            for turn in [1, 254, TURNS] {
                for list in [limit.list(), 1 << store] {
                    let process = log.holder(store);
                    let vote =
                        Vote { process, by: store, store, tx, list, commit: true, turn, update: 0 };
                    refused(Entry::Vote(vote), r);
                    refused(Entry::Vote(Vote { commit: false, ..vote }), r);
                }
            }
        }
    }
    println!("a log of {stores} stores accepts {count} entries, and then no other");
}

fn main() {
    let seed = std::env::args().nth(1).map_or(1, |s| s.parse().expect("a seed"));
    let mut r = Random(seed);
    let mut histories = Vec::new();
    for limit in [FULL, SMALL] {
        longest_lists(&mut r, limit);
        histories.extend((0..HISTORIES).map(|_| History::grown(&mut r, limit)));
        histories.push(History { limit, entries: longest::longest_of_turn_1_in(limit) });
        histories.push(History { limit, entries: longest::longest_in(limit) });
    }
    let longest = histories.iter().map(|h| h.entries.len()).max().unwrap_or(0);
    let mut seen = AllSeen::default();
    for _ in 0..CALLS {
        one(&mut r, &histories, &mut seen);
    }
    println!("{CALLS} calls, up to {longest} lent records, rows of {ROW} bytes");
    assert!(seen.print_and_judge(), "an answer never occurred, or one that cannot occur did");
}
