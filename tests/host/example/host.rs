//! Runs of the example host, and the bytes of its file as the comment of slots.h has them.

use crate::plain_log::{Entry, Limit, Log, FULL, RECORD, SMALL, TURN};
use std::fs;
use std::io::{BufRead, BufReader, Write};
use std::path::{Path, PathBuf};
use std::process::{Child, ChildStdin, ChildStdout, Command, Stdio};

pub const SLOT: usize = 32;
/// The most slots of a file.
pub const SLOTS: usize = 1024;
/// The bytes of a slot before its zeros: the record and its checksum.
pub const FILLED: usize = RECORD + 4;

/// A file that is emptied first may go to the disk when it is closed, which takes a while.
pub fn write_in_place(path: &Path, bytes: &[u8]) {
    let file = fs::OpenOptions::new().write(true).create(true).truncate(false).open(path);
    let mut file = file.expect("a file");
    file.write_all(bytes).expect("its bytes");
    file.set_len(bytes.len() as u64).expect("its length");
}

/// What a run printed, and how it ended: an exit code, or none if it was killed.
pub struct Ran {
    pub out: String,
    pub err: String,
    pub code: Option<i32>,
}

/// The host's program, the converter's, the library of faults, and a folder for files.
pub struct Bench {
    pub program: PathBuf,
    pub converter: PathBuf,
    pub faults: PathBuf,
    pub dir: PathBuf,
}

impl Bench {
    pub fn file(&self) -> PathBuf {
        self.dir.join("records")
    }

    pub fn put(&self, bytes: &[u8]) {
        write_in_place(&self.file(), bytes);
    }

    pub fn bytes(&self) -> Vec<u8> {
        fs::read(self.file()).expect("the file is read")
    }

    pub fn command(&self, file: &Path) -> Command {
        let mut command = Command::new(&self.program);
        command.arg(file);
        command
    }

    /// The host with its log of that limit.
    pub fn with_limit(&self, limit: Limit) -> Command {
        let mut command = Command::new(&self.program);
        command.args((limit == SMALL).then_some("-s")).arg(self.file());
        command
    }

    /// The system does to the command what FAULT says.
    pub fn with_fault(&self, mut command: Command, fault: &str) -> Command {
        command.env("LD_PRELOAD", &self.faults).env("FAULT", fault);
        command
    }

    pub fn faulty(&self, fault: &str) -> Command {
        self.with_fault(self.command(&self.file()), fault)
    }

    /// The input goes through a file, so that neither side waits for the other.
    pub fn run_with(&self, mut command: Command, input: &[u8]) -> Ran {
        let lines = self.dir.join("lines");
        write_in_place(&lines, input);
        command.stdin(fs::File::open(&lines).expect("the input"));
        let output = command.output().expect("the host runs");
        Ran {
            out: String::from_utf8_lossy(&output.stdout).into_owned(),
            err: String::from_utf8_lossy(&output.stderr).into_owned(),
            code: output.status.code(),
        }
    }

    pub fn run(&self, input: &[u8]) -> Ran {
        self.run_with(self.command(&self.file()), input)
    }
}

/// A host that is running, asked line by line.
pub struct Running {
    pub child: Child,
    pub input: ChildStdin,
    pub output: BufReader<ChildStdout>,
}

impl Running {
    pub fn start(mut command: Command) -> Running {
        command.stdin(Stdio::piped()).stdout(Stdio::piped()).stderr(Stdio::null());
        let mut child = command.spawn().expect("the host starts");
        let input = child.stdin.take().expect("its input");
        let output = BufReader::new(child.stdout.take().expect("its output"));
        Running { child, input, output }
    }

    pub fn ask(&mut self, line: &str) -> String {
        writeln!(self.input, "{line}").expect("the host reads");
        let mut answer = String::new();
        self.output.read_line(&mut answer).expect("the host answers");
        answer
    }

    pub fn kill(&mut self) {
        self.child.kill().expect("the host is killed");
        self.child.wait().expect("the host ended");
    }
}

/// CRC-32, bit by bit.
pub fn crc32(bytes: &[u8]) -> u32 {
    let step = |sum: u32| if sum & 1 == 1 { sum >> 1 ^ 0xedb8_8320 } else { sum >> 1 };
    !bytes.iter().fold(!0, |sum, &b| (0..8).fold(sum ^ b as u32, |sum, _| step(sum)))
}

/// The checksum of a record, as a slot has it.
pub fn checksum(index: usize, record: &[u8]) -> [u8; 4] {
    let sum = crc32(&[&(index as u32).to_le_bytes()[..], record].concat());
    (sum | 0x8000_0001).to_le_bytes()
}

pub fn slot(index: usize, record: &[u8; RECORD]) -> [u8; SLOT] {
    let mut slot = [0; SLOT];
    slot[..RECORD].copy_from_slice(record);
    slot[RECORD..FILLED].copy_from_slice(&checksum(index, record));
    slot
}

/// The file that the host has after these entries.
pub fn slots(entries: &[Entry]) -> Vec<u8> {
    entries.iter().enumerate().flat_map(|(i, e)| slot(i, &e.to_record())).collect()
}

/// The record that a host wrote with version 2 of the header, which had no turns.
pub fn without_turn(e: &Entry) -> [u8; RECORD] {
    let mut record = e.to_record();
    assert_eq!(record[TURN], 1, "an entry of turn 1");
    record[TURN] = 0;
    record
}

/// The file that such a host has after these entries.
pub fn slots_without_turns(entries: &[Entry]) -> Vec<u8> {
    entries.iter().enumerate().flat_map(|(i, e)| slot(i, &without_turn(e))).collect()
}

/// The entry as a command, without its turn if that is 1.
pub fn line(e: &Entry) -> String {
    let (line, turn) = match *e {
        Entry::Take { process, store, turn } => (format!("take {process} {store}"), turn),
        Entry::Vote(v) => {
            let say = if v.commit { "commit" } else { "abort" };
            let (process, by, store, tx, list) = (v.process, v.by, v.store, v.tx, v.list);
            let update = v.update;
            (format!("vote {process} {by} {store} {tx} {list:02x} {say} {update:016x}"), v.turn)
        }
    };
    if turn == 1 {
        line
    } else {
        format!("{line} {turn}")
    }
}

/// The entries as commands, each with its LF.
pub fn lines(entries: &[Entry]) -> String {
    entries.iter().map(|e| line(e) + "\n").collect()
}

/// The log of the limit after these entries, all accepted.
pub fn log_in(limit: Limit, entries: &[Entry]) -> Log {
    let mut log = Log::open(limit);
    entries.iter().for_each(|e| assert_eq!(log.enter(e), 0));
    log
}

/// That of the full limit.
pub fn log_of(entries: &[Entry]) -> Log {
    log_in(FULL, entries)
}

/// Every query of a log, and what the host prints.
pub fn queries(log: &Log) -> (String, String) {
    let (mut asked, mut expected) = (String::new(), String::new());
    for store in 0..log.limit.stores {
        let rows = log.replay(store);
        asked += &format!("replay {store}\n");
        for (group, tx, upd) in &rows {
            expected += &format!("store={store} group={group} tx={tx} upd={upd:016x}\n");
        }
        expected += &format!("rows={}\n", rows.len());
    }
    for tx in 0..log.limit.transactions {
        asked += &format!("outcome {tx}\n");
        expected += &format!("tx={tx} outcome={}\n", log.outcome(tx).word());
        for store in 0..log.limit.stores {
            let involved = ["no", "yes", "unknown"][log.involvement(tx, store) as usize];
            asked += &format!("involvement {tx} {store}\n");
            expected += &format!("tx={tx} store={store} involved={involved}\n");
        }
    }
    (asked, expected)
}

/// The line that answers an entry.
pub fn answer(number: u32) -> String {
    let meaning = match number {
        0 => "accepted",
        1 => "does not read as an entry",
        2 => "a number outside its limits",
        6 => "no place left",
        7 => "an ill-formed vote",
        8 => "the process does not hold that store",
        9 => "a commit vote with another list is kept",
        10 => "a vote of that store is kept already",
        11 => "the process holds another store",
        12 => "a wrong turn of the process",
        _ => "unknown",
    };
    format!("answer={number} {meaning}")
}
