//! The plain log of document 01 with requests 3 to 6 of document 02 (updates, turns, involvement,
//! the two limits), and the hosts' calls on it, written from the documents by themselves. The tests
//! set the library and the example host beside it, and the benchmarks measure with it.

// A program that uses this module need not use all of it.
#![allow(dead_code)]

/// Bytes of a record, and of a replay's row.
pub const RECORD: usize = 16;
pub const ROW: usize = 10;
/// Where a record has its turn, and where its update begins.
pub const TURN: usize = 7;
const UPDATE: usize = 8;

/// The most stores and transactions of a log.
pub const STORES: usize = 8;
pub const TRANSACTIONS: usize = 32;
pub const PROCESSES: u8 = 15;
pub const TURNS: u8 = 255;

/// An answer: 0, or the number of the refusal.
pub mod answer {
    pub const ACCEPTED: u32 = 0;
    pub const UNREADABLE: u32 = 1;
    pub const OUTSIDE: u32 = 2;
    pub const NO_PLACE: u32 = 6;
    pub const ILL_FORMED: u32 = 7;
    pub const NOT_HOLDER: u32 = 8;
    pub const OTHER_LIST: u32 = 9;
    pub const KEPT_ALREADY: u32 = 10;
    pub const HOLDS_ANOTHER: u32 = 11;
    pub const WRONG_TURN: u32 = 12;
}
use answer::*;

/// The stores and the transactions of a log are those below these numbers.
#[derive(Clone, Copy, PartialEq, Eq, Debug)]
pub struct Limit {
    pub stores: u8,
    pub transactions: u8,
}

/// The limit of the full service, and that of a one-saw workshop.
pub const FULL: Limit = Limit { stores: STORES as u8, transactions: TRANSACTIONS as u8 };
pub const SMALL: Limit = Limit { stores: 3, transactions: 8 };

impl Limit {
    /// The limit that a call carries as a number of stores, or refusal 2.
    pub fn of(stores: u32) -> Result<Limit, u32> {
        [FULL, SMALL].into_iter().find(|limit| limit.stores as u32 == stores).ok_or(OUTSIDE)
    }

    fn has_store(self, store: u32) -> bool {
        store < self.stores.min(STORES as u8) as u32
    }

    fn has_transaction(self, tx: u32) -> bool {
        tx < self.transaction_count() as u32
    }

    /// `min` changes no number, here and above. It tells the compiler that a log has the places.
    fn transaction_count(self) -> u8 {
        self.transactions.min(TRANSACTIONS as u8)
    }

    /// Whether the list names no other stores.
    fn has_list(self, list: u32) -> bool {
        list >> self.stores == 0
    }

    /// The list of all its stores.
    pub fn list(self) -> u8 {
        0xff >> (STORES as u8 - self.stores)
    }
}

#[derive(Clone, Copy, PartialEq, Eq, Debug)]
pub enum Outcome {
    Open,
    Commit,
    Abort,
}

impl Outcome {
    pub fn word(self) -> &'static str {
        match self {
            Outcome::Open => "open",
            Outcome::Commit => "commit",
            Outcome::Abort => "abort",
        }
    }
}

#[derive(Clone, Copy, PartialEq, Eq, Debug)]
pub struct Vote {
    pub process: u8,
    pub by: u8,
    pub store: u8,
    pub tx: u8,
    pub list: u8,
    pub commit: bool,
    pub turn: u8,
    pub update: u64,
}

impl Vote {
    /// A list without store or by, a commit on behalf, or an abort with an update.
    pub fn ill_formed(&self) -> bool {
        !has(self.list, self.store)
            || !has(self.list, self.by)
            || self.commit && self.by != self.store
            || !self.commit && self.update != 0
    }
}

#[derive(Clone, Copy, PartialEq, Eq, Debug)]
pub enum Entry {
    Take { process: u8, store: u8, turn: u8 },
    Vote(Vote),
}

/// An entry's numbers as a call has them.
#[derive(Clone, Copy, PartialEq, Eq, Debug)]
pub struct Numbers {
    /// Kind, process, by, store, tx, list, say and turn, as at the start of a record.
    pub first: [u32; 8],
    pub update: u64,
}

impl Entry {
    /// The entry that the numbers stand for in a log of that limit, or refusal 1 or 2.
    pub fn read(n: &Numbers, limit: Limit) -> Result<Entry, u32> {
        let [kind, process, by, store, tx, list, say, turn] = n.first;
        match kind {
            0 if by | tx | list | say == 0 && n.update == 0 => {}
            1 if say <= 1 => {}
            _ => return Err(UNREADABLE),
        }
        if process == 0
            || process > PROCESSES as u32
            || !limit.has_store(store)
            || !limit.has_store(by)
            || !limit.has_transaction(tx)
            || !limit.has_list(list)
            || turn > TURNS as u32
        {
            return Err(OUTSIDE);
        }
        let turn = turn.max(1) as u8;
        if kind == 0 {
            return Ok(Entry::Take { process: process as u8, store: store as u8, turn });
        }
        Ok(Entry::Vote(Vote {
            process: process as u8,
            by: by as u8,
            store: store as u8,
            tx: tx as u8,
            list: list as u8,
            commit: say == 1,
            turn,
            update: n.update,
        }))
    }

    pub fn numbers(&self) -> Numbers {
        let (first, update) = match *self {
            Entry::Take { process, store, turn } => ([0, process, 0, store, 0, 0, 0, turn], 0),
            Entry::Vote(v) => {
                ([1, v.process, v.by, v.store, v.tx, v.list, v.commit as u8, v.turn], v.update)
            }
        };
        Numbers { first: first.map(u32::from), update }
    }

    pub fn from_record(r: &[u8], limit: Limit) -> Result<Entry, u32> {
        let first = std::array::from_fn(|i| r[i] as u32);
        let update = u64::from_le_bytes(r[UPDATE..RECORD].try_into().expect("eight bytes"));
        Entry::read(&Numbers { first, update }, limit)
    }

    pub fn to_record(&self) -> [u8; RECORD] {
        let n = self.numbers();
        let mut r = [0; RECORD];
        for i in 0..UPDATE {
            r[i] = n.first[i] as u8;
        }
        r[UPDATE..].copy_from_slice(&n.update.to_le_bytes());
        r
    }
}

#[derive(Clone)]
pub struct Log {
    pub limit: Limit,
    votes: [[Option<Vote>; STORES]; TRANSACTIONS],
    holders: [u8; STORES],
    /// The turn in which the holder took the store.
    turns: [u8; STORES],
    /// The turn of each process's last accepted take, of any store; 0 if none.
    last_turns: [u8; PROCESSES as usize + 1],
    /// Bit p: process p took the store, at any time.
    held: [u16; STORES],
    /// 0 if none.
    group: [u8; TRANSACTIONS],
    groups: u8,
    /// The transactions that ran when the last group was begun.
    running_then: u32,
}

fn has(list: u8, store: u8) -> bool {
    list >> store & 1 == 1
}

impl Default for Log {
    fn default() -> Log {
        Log::new()
    }
}

impl Log {
    /// An empty log of the full limit.
    pub fn new() -> Log {
        Log::open(FULL)
    }

    /// An empty log. It is given entries within its limit.
    pub fn open(limit: Limit) -> Log {
        Log {
            limit,
            votes: [[None; STORES]; TRANSACTIONS],
            holders: [0; STORES],
            turns: [0; STORES],
            last_turns: [0; PROCESSES as usize + 1],
            held: [0; STORES],
            group: [0; TRANSACTIONS],
            groups: 0,
            running_then: 0,
        }
    }

    pub fn outcome(&self, tx: u8) -> Outcome {
        let row = &self.votes[tx as usize];
        let commits = |s: u8| matches!(row[s as usize], Some(v) if v.commit);
        if row.iter().flatten().any(|v| !v.commit) {
            return Outcome::Abort;
        }
        let covered = |list: u8| (0..8).all(|s| !has(list, s) || commits(s));
        if row.iter().flatten().any(|v| covered(v.list)) {
            return Outcome::Commit;
        }
        Outcome::Open
    }

    /// Whether a vote on the transaction is kept.
    pub fn has_vote(&self, tx: u8) -> bool {
        self.votes[tx as usize].iter().any(|v| v.is_some())
    }

    pub fn kept(&self, tx: u8, store: u8) -> Option<Vote> {
        self.votes[tx as usize][store as usize]
    }

    /// The group of a committed transaction; 0 if none.
    pub fn group(&self, tx: u8) -> u8 {
        self.group[tx as usize]
    }

    /// The process that holds the store; 0 if none.
    pub fn holder(&self, store: u8) -> u8 {
        self.holders[store as usize]
    }

    /// The turn of the process that holds the store; 0 if none does.
    pub fn holder_turn(&self, store: u8) -> u8 {
        self.turns[store as usize]
    }

    /// The turn of the process's last accepted take; 0 if none.
    pub fn last_turn(&self, process: u8) -> u8 {
        self.last_turns[process as usize]
    }

    fn running(&self) -> u32 {
        let mut set = 0;
        for tx in 0..self.limit.transaction_count() {
            if self.has_vote(tx) && self.outcome(tx) == Outcome::Open {
                set |= 1 << tx;
            }
        }
        set
    }

    fn take(&mut self, process: u8, store: u8, turn: u8) -> u32 {
        let s = store as usize;
        if (0..STORES).any(|other| other != s && self.holders[other] == process) {
            return HOLDS_ANOTHER;
        }
        let last = self.last_turns[process as usize];
        let held = self.held[s] >> process & 1 == 1;
        if turn < last || turn == last && held {
            return WRONG_TURN;
        }
        self.holders[s] = process;
        self.turns[s] = turn;
        self.last_turns[process as usize] = turn;
        self.held[s] |= 1 << process;
        ACCEPTED
    }

    fn vote(&mut self, v: Vote) -> u32 {
        if v.ill_formed() {
            return ILL_FORMED;
        }
        if self.holders[v.by as usize] != v.process {
            return NOT_HOLDER;
        }
        let row = &self.votes[v.tx as usize];
        let clash = |k: &Vote| {
            k.commit && (if v.commit { k.list != v.list } else { v.list & !k.list != 0 })
        };
        if row.iter().flatten().any(clash) {
            return OTHER_LIST;
        }
        if row[v.store as usize].is_some() {
            return KEPT_ALREADY;
        }
        if self.turns[v.by as usize] != v.turn {
            return WRONG_TURN;
        }
        let running = self.has_vote(v.tx);
        self.votes[v.tx as usize][v.store as usize] = Some(v);
        if self.outcome(v.tx) == Outcome::Commit {
            self.commit(v.tx, running);
        }
        ACCEPTED
    }

    /// The transaction commits; it was running just before or not.
    fn commit(&mut self, tx: u8, running: bool) {
        if self.running_then >> tx & 1 == 0 {
            self.groups += 1;
            self.running_then = self.running() | (running as u32) << tx;
        }
        self.group[tx as usize] = self.groups;
    }

    pub fn enter(&mut self, e: &Entry) -> u32 {
        match *e {
            Entry::Take { process, store, turn } => self.take(process, store, turn),
            Entry::Vote(v) => self.vote(v),
        }
    }

    /// 0 no, 1 yes, 2 unknown.
    pub fn involvement(&self, tx: u8, store: u8) -> u8 {
        let votes = || self.votes[tx as usize].iter().flatten();
        if let Some(v) = votes().find(|v| v.commit) {
            return has(v.list, store) as u8;
        }
        if votes().any(|v| has(v.list, store)) {
            return 1;
        }
        2
    }

    /// Group, tx and update of each row.
    pub fn replay(&self, store: u8) -> Vec<(u8, u8, u64)> {
        let mut rows = Vec::with_capacity(TRANSACTIONS);
        for tx in 0..TRANSACTIONS {
            if let Some(v) = self.votes[tx][store as usize] {
                if v.commit && self.group[tx] != 0 {
                    rows.push((self.group[tx], tx as u8, v.update));
                }
            }
        }
        rows.sort_unstable();
        rows
    }
}

/// The log of that many stores after the lent records, or the first refusal found.
pub fn log_behind(stores: u32, records: &[u8], count: usize) -> Result<Log, u32> {
    let limit = Limit::of(stores)?;
    if count > records.len() / RECORD {
        return Err(OUTSIDE);
    }
    let mut log = Log::open(limit);
    for r in records.chunks_exact(RECORD).take(count) {
        let answer = log.enter(&Entry::from_record(r, limit)?);
        if answer != ACCEPTED {
            return Err(answer);
        }
    }
    Ok(log)
}

fn answered(r: Result<(), u32>) -> u32 {
    r.err().unwrap_or(ACCEPTED)
}

fn write(out: &mut [u8], value: &[u8]) -> Result<(), u32> {
    out.get_mut(..value.len()).ok_or(NO_PLACE)?.copy_from_slice(value);
    Ok(())
}

pub fn add(stores: u32, records: &mut [u8], count: usize, n: &Numbers) -> u32 {
    answered((|| {
        let mut log = log_behind(stores, records, count)?;
        let e = Entry::read(n, log.limit)?;
        match log.enter(&e) {
            ACCEPTED => write(&mut records[count * RECORD..], &e.to_record()),
            refused => Err(refused),
        }
    })())
}

pub fn outcome(stores: u32, records: &[u8], count: usize, tx: u32, out: &mut [u8]) -> u32 {
    answered((|| {
        let log = log_behind(stores, records, count)?;
        if !log.limit.has_transaction(tx) {
            return Err(OUTSIDE);
        }
        let value = match log.outcome(tx as u8) {
            Outcome::Open => 0,
            Outcome::Commit => 1,
            Outcome::Abort => 2,
        };
        write(out, &[value])
    })())
}

pub fn involvement(
    stores: u32,
    records: &[u8],
    count: usize,
    tx: u32,
    store: u32,
    out: &mut [u8],
) -> u32 {
    answered((|| {
        let log = log_behind(stores, records, count)?;
        if !log.limit.has_transaction(tx) || !log.limit.has_store(store) {
            return Err(OUTSIDE);
        }
        write(out, &[log.involvement(tx as u8, store as u8)])
    })())
}

pub fn replay(stores: u32, records: &[u8], count: usize, store: u32, out: &mut [u8]) -> u32 {
    answered((|| {
        let log = log_behind(stores, records, count)?;
        if !log.limit.has_store(store) {
            return Err(OUTSIDE);
        }
        let rows = log.replay(store as u8);
        let mut value = Vec::with_capacity(1 + rows.len() * ROW);
        value.push(rows.len() as u8);
        for (group, tx, update) in rows {
            value.extend_from_slice(&[group, tx]);
            value.extend_from_slice(&update.to_le_bytes());
        }
        write(out, &value)
    })())
}
