//! The cost of each entry point, beside the Rust implementation of the tests on the same bytes.
//! With no arguments: the times, as a table.
//! With `SIDE CALL STORES RECORDS TIMES`: TIMES calls of one side (`library` or `rust`) with this
//! limit and nothing else, for a counter of instructions.

#[path = "../../tests/host/library.rs"]
mod library;
#[path = "../../tests/host/longest.rs"]
mod longest;
#[path = "../../tests/host/plain_log.rs"]
mod plain_log;

use longest::{longest_in, longest_of_turn_1_in, of_turn_1, MOST, OF_TURN_1};
use plain_log::{answer, Limit, Numbers, FULL, RECORD, ROW, SMALL, TRANSACTIONS};
use std::hint::black_box;
use std::time::{Duration, Instant};

const CALLS: [&str; 4] = ["add", "outcome", "involvement", "replay"];
/// The limit, and how many records are lent.
const LOGS: [(Limit, usize); 6] = [
    (FULL, 0),
    (FULL, 10),
    (FULL, 100),
    (FULL, OF_TURN_1),
    (FULL, MOST),
    (SMALL, of_turn_1(SMALL)),
];
/// The most bytes of a replay.
const REPLAY: usize = 1 + TRANSACTIONS * ROW;
const TRIALS: usize = 1000;
const TRIAL: Duration = Duration::from_micros(100);

/// The first `count` records, with room for one more, and the entry that comes next. All are of
/// turn 1, as long as there are so many.
struct Lent {
    stores: u32,
    count: usize,
    records: Vec<u8>,
    next: Numbers,
    out: [u8; REPLAY],
}

impl Lent {
    fn first(limit: Limit, count: usize) -> Lent {
        let short = count <= of_turn_1(limit);
        let entries = if short { longest_of_turn_1_in(limit) } else { longest_in(limit) };
        let mut records: Vec<u8> = entries[..count].iter().flat_map(|e| e.to_record()).collect();
        records.resize(records.len() + RECORD, 0);
        let next = entries.get(count).unwrap_or(&entries[0]).numbers();
        Lent { stores: limit.stores as u32, count, records, next, out: [0; REPLAY] }
    }

    fn library(&mut self, call: &str) -> u32 {
        let (stores, count, out) = (black_box(self.stores), self.count, &mut self.out);
        let records = black_box(&mut self.records[..]);
        match call {
            "add" => library::add(stores, records, count, &self.next),
            "outcome" => library::outcome(stores, records, count, 3, out),
            "involvement" => library::involvement(stores, records, count, 3, 2, out),
            _ => library::replay(stores, records, count, 2, out),
        }
    }

    fn rust(&mut self, call: &str) -> u32 {
        let (stores, count, out) = (black_box(self.stores), self.count, &mut self.out);
        let records = black_box(&mut self.records[..]);
        match call {
            "add" => plain_log::add(stores, records, count, &self.next),
            "outcome" => plain_log::outcome(stores, records, count, 3, out),
            "involvement" => plain_log::involvement(stores, records, count, 3, 2, out),
            _ => plain_log::replay(stores, records, count, 2, out),
        }
    }
}

/// Nanoseconds a call in one trial.
fn trial(mut call: impl FnMut() -> u32) -> f64 {
    let (start, mut calls) = (Instant::now(), 0u32);
    while start.elapsed() < TRIAL {
        for _ in 0..4 {
            black_box(call());
        }
        calls += 4;
    }
    start.elapsed().as_nanos() as f64 / calls as f64
}

fn main() {
    let words: Vec<String> = std::env::args().skip(1).collect();
    if let [side, call, stores, count, times] = &words[..] {
        let limit = Limit::of(stores.parse().expect("a limit")).expect("one of the two limits");
        let mut lent = Lent::first(limit, count.parse().expect("a count"));
        for _ in 0..times.parse().expect("a number") {
            black_box(if side == "library" { lent.library(call) } else { lent.rust(call) });
        }
        return;
    }
    println!("| call | lent records | library, ns | Rust, ns | ratio |");
    println!("|---|---:|---:|---:|---:|");
    for (limit, count) in LOGS {
        let mut lent = Lent::first(limit, count);
        let small = if limit == SMALL { ", small log" } else { "" };
        for call in CALLS {
            // behind all entries of a list comes its first take once more
            let again = call == "add" && count >= of_turn_1(limit);
            let expected = if again { answer::WRONG_TURN } else { answer::ACCEPTED };
            assert_eq!((lent.library(call), lent.rust(call)), (expected, expected));
            let (mut ours, mut rust) = (f64::MAX, f64::MAX);
            for _ in 0..TRIALS {
                ours = ours.min(trial(|| lent.library(call)));
                rust = rust.min(trial(|| lent.rust(call)));
            }
            println!("| {call}{small} | {count} | {ours:.0} | {rust:.0} | {:.2} |", ours / rust);
        }
    }
}
