//! The job of `world` in plain Rust, for comparison: no proofs, a heap, one read of the input, and
//! the log of the tests, all changed in place.

#[path = "../tests/host/plain_log.rs"]
mod plain_log;
pub mod step_file;

use plain_log::{Entry, Log, Outcome, Vote, STORES, TRANSACTIONS};
use std::io::Write;
use step_file::{answers, print_log, print_rows, program, step, Fields, Row, TURN, TURNS};

pub const MESSAGES: usize = 128;
const QUEUE: usize = 8;
const BATCH: usize = 4;

#[derive(Clone, Copy)]
struct Batch {
    len: usize,
    entries: [Entry; BATCH],
}

impl Batch {
    fn first_of(queue: &[Entry]) -> Batch {
        let len = queue.len().min(BATCH);
        let mut entries = [Entry::Take { process: 0, store: 0, turn: 0 }; BATCH];
        entries[..len].copy_from_slice(&queue[..len]);
        Batch { len, entries }
    }

    fn entries(&self) -> &[Entry] {
        &self.entries[..self.len]
    }
}

#[derive(Clone, Copy)]
struct Accepted {
    ballot: u8,
    batch: Batch,
}

enum Message {
    Request { coord: u8, entry: Entry },
    Prepare { acceptor: u8, inst: u8, ballot: u8 },
    Promise { acceptor: u8, inst: u8, ballot: u8, accepted: Option<Accepted> },
    Accept { acceptor: u8, inst: u8, ballot: u8, batch: Batch },
    Acceptance { acceptor: u8, inst: u8, ballot: u8 },
    Outcome { process: u8, tx: u8, outcome: Outcome },
    Restore { process: u8, turn: u8, store: u8, position: u8, rows: Vec<Row>, running: u32 },
    Follow { process: u8, store: u8, tx: u8, followed: Followed },
}

/// What a follow says of its transaction.
#[derive(Clone, Copy)]
struct Followed {
    outcome: Outcome,
    update: u64,
}

impl Message {
    fn receiver(&self) -> (Role, u8) {
        match *self {
            Message::Request { coord, .. } => (Role::Coord, coord),
            Message::Prepare { acceptor, .. } | Message::Accept { acceptor, .. } => {
                (Role::Acceptor, acceptor)
            }
            Message::Promise { ballot, .. } | Message::Acceptance { ballot, .. } => {
                (Role::Coord, ballot % 3)
            }
            Message::Outcome { process, .. }
            | Message::Restore { process, .. }
            | Message::Follow { process, .. } => (Role::Process, process),
        }
    }
}

#[derive(Clone, Copy, Default)]
pub struct Slot {
    pub promised: u8,
    accepted: Option<Accepted>,
}

#[derive(Default)]
pub struct Coordinator {
    log: Log,
    pub applied: u8,
    pub queue: Vec<Entry>,
    pub opened: u8,
    promised: u8, // the acceptors heard, as bits
    highest: Option<Accepted>,
    proposed: Option<Batch>,
    accepted: u8,
}

impl Coordinator {
    fn begin(&mut self, ballot: u8) {
        self.opened = ballot;
        self.promised = 0;
        self.highest = None;
        self.proposed = None;
        self.accepted = 0;
    }

    fn request(&mut self, entry: &Entry) -> Result<(), u32> {
        if !self.queue.contains(entry) {
            refuse(6, self.queue.len() == QUEUE)?;
            self.queue.push(*entry);
        }
        Ok(())
    }

    fn promise(&mut self, acceptor: u8, inst: u8, ballot: u8, accepted: &Option<Accepted>) {
        if inst == self.applied && ballot == self.opened {
            self.promised |= 1 << acceptor;
            if accepted.map_or(0, |a| a.ballot) > self.highest.map_or(0, |a| a.ballot) {
                self.highest = *accepted;
            }
        }
    }

    fn acceptance(&mut self, acceptor: u8, inst: u8, ballot: u8, acceptors: u8) {
        if inst == self.applied && ballot == self.opened {
            self.accepted |= 1 << acceptor;
            if majority(self.accepted, acceptors) {
                let batch = self.proposed.expect("an accepted ballot was proposed");
                self.learn(batch);
            }
        }
    }

    fn learn(&mut self, batch: Batch) {
        for entry in batch.entries() {
            self.log.enter(entry);
        }
        self.queue.retain(|entry| !batch.entries().contains(entry));
        self.applied += 1;
        self.begin(0);
    }
}

#[derive(Default)]
struct Process {
    turn: u8,
    heard: [Option<Outcome>; TRANSACTIONS],
    store: Option<u8>,
    position: u8,
    rows: Vec<Row>,
    running: u32, // the transactions that the restore lists, as bits
    follows: [Option<Followed>; TRANSACTIONS],
}

impl Process {
    /// A process that begins this turn.
    fn in_turn(turn: u8) -> Process {
        Process { turn, ..Process::default() }
    }

    fn restore(&mut self, turn: u8, store: u8, position: u8, rows: &Vec<Row>, running: u32) {
        if turn == self.turn && position > self.position {
            self.store = Some(store);
            self.position = position;
            self.rows.clone_from(rows);
            self.running = running;
            self.follows = [None; TRANSACTIONS];
        }
    }

    fn follow(&mut self, store: u8, tx: u8, followed: Followed) {
        if self.store == Some(store) && self.running >> tx & 1 == 1 {
            self.follows[tx as usize].get_or_insert(followed);
        }
    }

    /// The transactions that the restore lists, and the follows taken since.
    fn print_follows(&self, out: &mut Vec<u8>) {
        for tx in (0..TRANSACTIONS).filter(|tx| self.running >> tx & 1 == 1) {
            writeln!(out, "running={tx}").unwrap();
        }
        for (tx, followed) in self.follows.iter().enumerate() {
            if let Some(Followed { outcome, update }) = followed {
                writeln!(out, "follow={} outcome={} upd={:016x}", tx, outcome.word(), update)
                    .unwrap();
            }
        }
    }
}

#[derive(Clone, Copy)]
pub enum Role {
    Acceptor,
    Coord,
    Process,
}

enum Step {
    Setup { acceptors: u8 },
    Request { coord: u8, entry: Entry },
    Open { coord: u8, inst: u8, ballot: u8 },
    Propose { coord: u8, inst: u8, ballot: u8 },
    Deliver { msg: u8 },
    Tell { coord: u8, process: u8, tx: u8 },
    Restore { coord: u8, process: u8 },
    Follow { coord: u8, process: u8, tx: u8 },
    Crash { role: Role, id: u8 },
    Back { process: u8, turn: u8 },
}

#[derive(Default)]
pub struct World {
    pub acceptors: u8, // 0 before setup
    pub slots: [[Slot; 16]; 5],
    pub coordinators: [Coordinator; 3],
    processes: [Process; 16],
    down: [u16; 3], // by role
    messages: Vec<Message>,
}

fn refuse(number: u32, applies: bool) -> Result<(), u32> {
    if applies {
        Err(number)
    } else {
        Ok(())
    }
}

fn majority(heard: u8, acceptors: u8) -> bool {
    2 * heard.count_ones() > acceptors as u32
}

fn store_of(log: &Log, process: u8) -> Option<u8> {
    (0..STORES as u8).find(|&s| log.holder(s) == process)
}

fn commit_vote(log: &Log, tx: u8, store: u8) -> Option<Vote> {
    log.kept(tx, store).filter(|vote| vote.commit)
}

/// The transactions that run with a kept commit vote of the store, as bits.
fn awaited(log: &Log, store: u8) -> u32 {
    (0..TRANSACTIONS as u8)
        .filter(|&tx| commit_vote(log, tx, store).is_some() && log.outcome(tx) == Outcome::Open)
        .fold(0, |set, tx| set | 1 << tx)
}

impl World {
    pub fn is_down(&self, role: Role, id: u8) -> bool {
        self.down[role as usize] >> id & 1 == 1
    }

    pub fn sent(&self) -> usize {
        self.messages.len()
    }

    fn is_full(&self, sends: u8) -> bool {
        MESSAGES - self.messages.len() < sends as usize
    }

    fn step(&mut self, step: Step) -> Result<(), u32> {
        match step {
            Step::Setup { acceptors } => {
                refuse(5, self.acceptors != 0)?;
                self.acceptors = acceptors;
                Ok(())
            }
            Step::Request { coord, entry } => self.request(coord, entry),
            Step::Open { coord, inst, ballot } => self.open(coord, inst, ballot),
            Step::Propose { coord, inst, ballot } => self.propose(coord, inst, ballot),
            Step::Deliver { msg } => self.deliver(msg as usize),
            Step::Tell { coord, process, tx } => self.tell(coord, process, tx),
            Step::Restore { coord, process } => self.restore(coord, process),
            Step::Follow { coord, process, tx } => self.follow(coord, process, tx),
            Step::Crash { role, id } => {
                refuse(3, self.is_down(role, id))?;
                refuse(5, self.acceptors == 0)?;
                self.down[role as usize] |= 1 << id;
                Ok(())
            }
            Step::Back { process, turn } => {
                let present = &mut self.processes[process as usize];
                refuse(5, self.acceptors == 0 || turn <= present.turn)?;
                *present = Process::in_turn(turn);
                self.down[Role::Process as usize] &= !(1 << process);
                Ok(())
            }
        }
    }

    fn request(&mut self, coord: u8, entry: Entry) -> Result<(), u32> {
        let (process, turn, vote) = match entry {
            Entry::Take { process, turn, .. } => (process, turn, None),
            Entry::Vote(vote) => (vote.process, vote.turn, Some(vote)),
        };
        let sender = &self.processes[process as usize];
        refuse(3, self.is_down(Role::Process, process) || self.is_down(Role::Coord, coord))?;
        refuse(
            5,
            self.acceptors == 0
                || turn != sender.turn
                || vote.is_some_and(|v| sender.store != Some(v.by)),
        )?;
        refuse(6, self.is_full(1))?;
        refuse(7, vote.is_some_and(|v| v.ill_formed()))?;
        self.messages.push(Message::Request { coord, entry });
        Ok(())
    }

    fn open(&mut self, coord: u8, inst: u8, ballot: u8) -> Result<(), u32> {
        let c = &self.coordinators[coord as usize];
        refuse(3, self.is_down(Role::Coord, coord))?;
        refuse(
            5,
            self.acceptors == 0 || inst != c.applied || ballot % 3 != coord || ballot <= c.opened,
        )?;
        refuse(6, self.is_full(self.acceptors))?;
        self.coordinators[coord as usize].begin(ballot);
        self.messages.extend((0..self.acceptors).map(|acceptor| Message::Prepare {
            acceptor,
            inst,
            ballot,
        }));
        Ok(())
    }

    fn propose(&mut self, coord: u8, inst: u8, ballot: u8) -> Result<(), u32> {
        let c = &self.coordinators[coord as usize];
        refuse(3, self.is_down(Role::Coord, coord))?;
        refuse(
            5,
            self.acceptors == 0 || inst != c.applied || ballot != c.opened || c.proposed.is_some(),
        )?;
        refuse(
            5,
            !majority(c.promised, self.acceptors) || c.highest.is_none() && c.queue.is_empty(),
        )?;
        refuse(6, self.is_full(self.acceptors))?;
        let batch = c.highest.map_or_else(|| Batch::first_of(&c.queue), |accepted| accepted.batch);
        self.coordinators[coord as usize].proposed = Some(batch);
        self.messages.extend((0..self.acceptors).map(|acceptor| Message::Accept {
            acceptor,
            inst,
            ballot,
            batch,
        }));
        Ok(())
    }

    fn deliver(&mut self, msg: usize) -> Result<(), u32> {
        refuse(4, msg >= self.messages.len())?;
        let full = self.is_full(1);
        let (role, id) = self.messages[msg].receiver();
        refuse(3, self.is_down(role, id))?;
        match &self.messages[msg] {
            Message::Request { entry, .. } => self.coordinators[id as usize].request(entry)?,
            &Message::Prepare { acceptor, inst, ballot } => {
                let slot = &mut self.slots[acceptor as usize][inst as usize];
                if ballot > slot.promised {
                    refuse(6, full)?;
                    slot.promised = ballot;
                    let accepted = slot.accepted;
                    self.messages.push(Message::Promise { acceptor, inst, ballot, accepted });
                }
            }
            &Message::Accept { acceptor, inst, ballot, batch } => {
                let slot = &mut self.slots[acceptor as usize][inst as usize];
                if ballot >= slot.promised {
                    refuse(6, full)?;
                    *slot = Slot { promised: ballot, accepted: Some(Accepted { ballot, batch }) };
                    self.messages.push(Message::Acceptance { acceptor, inst, ballot });
                }
            }
            Message::Promise { acceptor, inst, ballot, accepted } => {
                self.coordinators[id as usize].promise(*acceptor, *inst, *ballot, accepted);
            }
            &Message::Acceptance { acceptor, inst, ballot } => {
                let c = &mut self.coordinators[id as usize];
                c.acceptance(acceptor, inst, ballot, self.acceptors);
            }
            Message::Outcome { tx, outcome, .. } => {
                self.processes[id as usize].heard[*tx as usize] = Some(*outcome)
            }
            Message::Restore { turn, store, position, rows, running, .. } => {
                self.processes[id as usize].restore(*turn, *store, *position, rows, *running);
            }
            &Message::Follow { store, tx, followed, .. } => {
                self.processes[id as usize].follow(store, tx, followed);
            }
        }
        Ok(())
    }

    fn tell(&mut self, coord: u8, process: u8, tx: u8) -> Result<(), u32> {
        let outcome = self.coordinators[coord as usize].log.outcome(tx);
        refuse(3, self.is_down(Role::Coord, coord) || self.is_down(Role::Process, process))?;
        refuse(5, self.acceptors == 0 || outcome == Outcome::Open)?;
        refuse(6, self.is_full(1))?;
        self.messages.push(Message::Outcome { process, tx, outcome });
        Ok(())
    }

    fn restore(&mut self, coord: u8, process: u8) -> Result<(), u32> {
        let c = &self.coordinators[coord as usize];
        refuse(3, self.is_down(Role::Coord, coord) || self.is_down(Role::Process, process))?;
        refuse(5, self.acceptors == 0)?;
        let store = store_of(&c.log, process).ok_or(5u32)?;
        refuse(6, self.is_full(1))?;
        self.messages.push(Message::Restore {
            process,
            turn: c.log.holder_turn(store),
            store,
            position: c.applied,
            rows: c.log.replay(store),
            running: awaited(&c.log, store),
        });
        Ok(())
    }

    fn follow(&mut self, coord: u8, process: u8, tx: u8) -> Result<(), u32> {
        let log = &self.coordinators[coord as usize].log;
        refuse(3, self.is_down(Role::Coord, coord) || self.is_down(Role::Process, process))?;
        let outcome = log.outcome(tx);
        refuse(5, self.acceptors == 0 || outcome == Outcome::Open)?;
        let store = store_of(log, process).ok_or(5u32)?;
        let vote = commit_vote(log, tx, store).ok_or(5u32)?;
        refuse(6, self.is_full(1))?;
        let update = if outcome == Outcome::Commit { vote.update } else { 0 };
        let followed = Followed { outcome, update };
        self.messages.push(Message::Follow { process, store, tx, followed });
        Ok(())
    }

    fn print(&self, out: &mut Vec<u8>) {
        for (i, c) in self.coordinators.iter().enumerate() {
            writeln!(out, "coord={} applied={}", i, c.applied).unwrap();
            print_log(out, &c.log);
        }
        for (i, p) in self.processes.iter().enumerate() {
            for (tx, heard) in p.heard.iter().enumerate() {
                if let Some(outcome) = heard {
                    writeln!(out, "proc={} tx={} heard={}", i, tx, outcome.word()).unwrap();
                }
            }
        }
        for (i, p) in self.processes.iter().enumerate() {
            if let Some(store) = p.store {
                writeln!(out, "proc={} store={} position={}", i, store, p.position).unwrap();
                print_rows(out, store, &p.rows);
                p.print_follows(out);
            }
        }
    }
}

impl Step {
    fn read(fields: &mut Fields, acceptors: u8) -> Option<Step> {
        // the most frequent first
        const KINDS: [(&[u8], u8); 11] = [
            (b"deliver", 5),
            (b"take", 0),
            (b"vote", 1),
            (b"setup", 2),
            (b"open", 3),
            (b"propose", 4),
            (b"tell", 6),
            (b"restore", 7),
            (b"follow", 8),
            (b"crash", 9),
            (b"back", 10),
        ];
        let coord = |fields: &mut Fields| fields.decimal(b" coord=", 0..=2);
        let process = |fields: &mut Fields| fields.decimal(b" proc=", 1..=15);
        let tx = |fields: &mut Fields| fields.decimal(b" tx=", 0..=31);
        let ballot = |fields: &mut Fields| -> Option<(u8, u8, u8)> {
            Some((
                coord(fields)?,
                fields.decimal(b" inst=", 0..=15)?,
                fields.decimal(b" ballot=", 1..=255)?,
            ))
        };
        Some(match fields.word(b"do=", &KINDS)? {
            0 => Step::Request { entry: fields.take()?, coord: fields.decimal(b" to=", 0..=2)? },
            1 => Step::Request { entry: fields.vote()?, coord: fields.decimal(b" to=", 0..=2)? },
            2 => {
                let acceptors = fields.decimal(b" acceptors=", 3..=5)?;
                fields.outside |= acceptors == 4;
                Step::Setup { acceptors }
            }
            3 => {
                let (coord, inst, ballot) = ballot(fields)?;
                Step::Open { coord, inst, ballot }
            }
            4 => {
                let (coord, inst, ballot) = ballot(fields)?;
                Step::Propose { coord, inst, ballot }
            }
            5 => Step::Deliver { msg: fields.decimal(b" msg=", 0..=127)? },
            6 => Step::Tell { coord: coord(fields)?, process: process(fields)?, tx: tx(fields)? },
            7 => Step::Restore { coord: coord(fields)?, process: process(fields)? },
            8 => Step::Follow { coord: coord(fields)?, process: process(fields)?, tx: tx(fields)? },
            9 => Step::read_crash(fields, acceptors)?,
            _ => Step::Back { process: process(fields)?, turn: fields.decimal(TURN, TURNS)? },
        })
    }

    fn read_crash(fields: &mut Fields, acceptors: u8) -> Option<Step> {
        let roles: [(&[u8], Role); 3] =
            [(b"acceptor", Role::Acceptor), (b"coord", Role::Coord), (b"proc", Role::Process)];
        let role = fields.word(b" role=", &roles)?;
        let limits = match role {
            Role::Acceptor => 0..=if acceptors == 0 { 4 } else { acceptors as u64 - 1 },
            Role::Coord => 0..=2,
            Role::Process => 1..=15,
        };
        Some(Step::Crash { role, id: fields.decimal(b" id=", limits)? })
    }
}

impl World {
    pub fn fresh() -> World {
        World {
            processes: std::array::from_fn(|_| Process::in_turn(1)),
            messages: Vec::with_capacity(MESSAGES),
            ..World::default()
        }
    }

    /// The answer to a line.
    pub fn line(&mut self, line: &[u8]) -> u32 {
        let acceptors = self.acceptors;
        let step = step(line, |fields| Step::read(fields, acceptors));
        step.and_then(|step| self.step(step)).err().unwrap_or(0)
    }
}

fn run(input: &[u8], out: &mut Vec<u8>) {
    let mut world = World::fresh();
    answers(input, out, |line| world.line(line));
    world.print(out);
}

fn main() {
    program(run);
}
