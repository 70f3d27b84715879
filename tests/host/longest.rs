//! Longest lists of accepted entries: with turns, and with turn 1 alone; of both limits.

// A program that uses this module need not use all of it.
#![allow(dead_code)]

use crate::plain_log::{Entry, Limit, Log, Vote, FULL, PROCESSES, TURNS};

/// Each store votes on a transaction at most once.
const fn votes(limit: Limit) -> usize {
    limit.stores as usize * limit.transactions as usize
}

/// How many entries of turn 1 a log accepts at most: each process takes a store at most once.
pub const fn of_turn_1(limit: Limit) -> usize {
    PROCESSES as usize * limit.stores as usize + votes(limit)
}

/// How many entries a log accepts at most. A process's takes have turns that never fall: at most
/// 255 have a turn above the one before, the first one counted. The others are of stores that it
/// never held, one less than there are.
pub const fn most(limit: Limit) -> usize {
    PROCESSES as usize * (TURNS as usize + limit.stores as usize - 1) + votes(limit)
}

/// Those of a log of the full limit.
pub const OF_TURN_1: usize = of_turn_1(FULL);
pub const MOST: usize = most(FULL);

struct Take {
    process: u8,
    store: u8,
    turn: u8,
}

/// Each process takes each store, in turn 1.
fn takes_of_turn_1(limit: Limit) -> Vec<Take> {
    let n = limit.stores;
    let process = |i: u8| (i / n + 2 * (i % n)) % PROCESSES + 1;
    let take = |i: u8| Take { process: process(i), store: i % n, turn: 1 };
    (0..PROCESSES * n).map(take).collect()
}

/// Each process takes a store in the turn: the holders their own again, and then the others one
/// after the other.
fn takes_of_turn(turn: u8, holders: &[u8]) -> Vec<Take> {
    let stores = 0..holders.len() as u8;
    let again = stores.clone().map(|store| (holders[store as usize], store));
    let others = (1..=PROCESSES).filter(|process| !holders.contains(process)).zip(stores.cycle());
    again.chain(others).map(|(process, store)| Take { process, store, turn }).collect()
}

/// The takes, and between them all votes; all accepted.
fn with_votes(takes: &[Take], limit: Limit) -> Vec<Entry> {
    let (all, stores) = (votes(limit), limit.stores as usize);
    let (mut log, mut entries) = (Log::open(limit), Vec::new());
    let (mut taken, mut votes) = (0, 0);
    while taken < takes.len() || votes < all {
        let due = taken.saturating_sub(stores) * all < votes * (takes.len() - stores);
        let entry = if taken < stores || votes == all || due {
            let Take { process, store, turn } = takes[taken];
            taken += 1;
            Entry::Take { process, store, turn }
        } else {
            let (tx, store) = ((votes / stores) as u8, (votes % stores) as u8);
            let update = (votes as u64).wrapping_mul(0x9e37_79b9_7f4a_7c15);
            votes += 1;
            Entry::Vote(Vote {
                process: log.holder(store),
                by: store,
                store,
                tx,
                list: limit.list(),
                commit: true,
                turn: log.holder_turn(store),
                update,
            })
        };
        assert_eq!(log.enter(&entry), 0);
        entries.push(entry);
    }
    entries
}

/// A longest list of turn 1 that a log of the limit accepts.
pub fn longest_of_turn_1_in(limit: Limit) -> Vec<Entry> {
    let entries = with_votes(&takes_of_turn_1(limit), limit);
    assert_eq!(entries.len(), of_turn_1(limit));
    entries
}

/// A longest list that a log of the limit accepts.
pub fn longest_in(limit: Limit) -> Vec<Entry> {
    let (mut takes, mut holders) = (takes_of_turn_1(limit), vec![0; limit.stores as usize]);
    for turn in 2..=TURNS {
        takes.iter().for_each(|take| holders[take.store as usize] = take.process);
        takes.extend(takes_of_turn(turn, &holders));
    }
    let entries = with_votes(&takes, limit);
    assert_eq!(entries.len(), most(limit));
    entries
}

pub fn longest_of_turn_1() -> Vec<Entry> {
    longest_of_turn_1_in(FULL)
}

pub fn longest() -> Vec<Entry> {
    longest_in(FULL)
}
