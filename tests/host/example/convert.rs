//! Files of an earlier host, with records of 12 bytes: what the converter makes of them, and that
//! the host leaves them as they are.

use crate::crash::limited;
use crate::damage::{padded, BEFORE_REFUSED, REFUSED};
use crate::host::{
    answer, checksum, log_of, queries, slot, slots, slots_without_turns, without_turn,
    write_in_place, Bench, Ran, SLOT,
};
use crate::longest::{longest, longest_of_turn_1, OF_TURN_1};
use crate::plain_log::{Entry, Log, FULL, RECORD, TURN};
use crate::random::{History, Random};
use std::fs;
use std::os::fd::AsRawFd;
use std::os::unix::fs::PermissionsExt;
use std::path::{Path, PathBuf};
use std::process::{Command, Stdio};
use std::thread::sleep;
use std::time::{Duration, Instant};

const OLD_RECORD: usize = 12;
const OLD_SLOT: usize = 16;

/// The most entries of a log without turns, and how many the files here have.
const MOST: usize = OF_TURN_1;
const SIZES: [usize; 7] = [0, 1, 2, 3, 9, MOST - 1, MOST];
const HISTORIES: usize = 20;
const KILLS: usize = 60;

fn old_slot(index: usize, record: &[u8; OLD_RECORD]) -> [u8; OLD_SLOT] {
    let mut slot = [0; OLD_SLOT];
    slot[..OLD_RECORD].copy_from_slice(record);
    slot[OLD_RECORD..].copy_from_slice(&checksum(index, record));
    slot
}

/// The file that the earlier host had after these entries.
fn old_slots(entries: &[Entry]) -> Vec<u8> {
    let mut bytes = Vec::new();
    for (i, e) in entries.iter().enumerate() {
        let record = without_turn(e);
        assert_eq!(record[OLD_RECORD..], [0; RECORD - OLD_RECORD], "an update of 32 bits");
        bytes.extend(old_slot(i, record[..OLD_RECORD].try_into().expect("twelve bytes")));
    }
    bytes
}

/// The entries as an earlier host could have them: of turn 1, with updates of 32 bits, and without
/// those that are refused then.
fn narrow(mut entries: Vec<Entry>) -> Vec<Entry> {
    let mut log = Log::new();
    entries.retain_mut(|e| {
        match e {
            Entry::Take { turn, .. } => *turn = 1,
            Entry::Vote(v) => (v.turn, v.update) = (1, v.update >> 32),
        }
        log.enter(e) == 0
    });
    entries
}

/// The first entries of a longest log of turn 1.
fn first(n: usize) -> Vec<Entry> {
    let entries = narrow(longest_of_turn_1()[..n].to_vec());
    assert_eq!(entries.len(), n);
    entries
}

/// A folder with a file OLD and, if all goes well, a file NEW.
struct Folder<'a> {
    bench: &'a Bench,
    dir: PathBuf,
}

impl Folder<'_> {
    fn old(&self) -> PathBuf {
        self.dir.join("old")
    }

    fn new(&self) -> PathBuf {
        self.dir.join("new")
    }

    fn command(&self, old: &Path, new: &Path) -> Command {
        let mut command = Command::new(&self.bench.converter);
        command.arg(old).arg(new);
        command
    }

    fn convert(&self) -> Command {
        self.command(&self.old(), &self.new())
    }

    fn faulty(&self, fault: &str) -> Command {
        self.bench.with_fault(self.convert(), fault)
    }

    fn run(&self, command: Command) -> Ran {
        self.bench.run_with(command, b"")
    }

    /// The names of the files that are there.
    fn names(&self) -> Vec<String> {
        let files = fs::read_dir(&self.dir).expect("the folder");
        let mut names: Vec<_> =
            files.map(|f| f.expect("a file").file_name().into_string().expect("a name")).collect();
        names.sort();
        names
    }

    fn put(&self, bytes: &[u8]) {
        for name in self.names() {
            if name != "old" {
                fs::remove_file(self.dir.join(name)).expect("a file is removed");
            }
        }
        write_in_place(&self.old(), bytes);
    }

    /// OLD is converted to these entries, and the converter says this on standard error.
    fn converted(&self, command: Command, bytes: &[u8], entries: &[Entry], err: &str) {
        self.put(bytes);
        let ran = self.run(command);
        let said =
            if err.is_empty() { "".into() } else { format!("{}: {err}\n", self.old().display()) };
        assert_eq!((ran.code, &ran.err), (Some(0), &said));
        assert_eq!(ran.out, format!("records converted: {}\n", entries.len()));
        assert_eq!(self.names(), ["new", "old"]);
        assert!(fs::read(self.old()).expect("OLD") == bytes, "OLD was changed");
        let new = slots_without_turns(entries);
        assert!(fs::read(self.new()).expect("NEW") == new, "NEW has other bytes");
    }

    /// The converter stops and says why; there is no NEW, and OLD is as it was.
    fn refused(&self, command: Command, bytes: &[u8], why: &str) {
        self.put(bytes);
        let ran = self.run(command);
        assert_eq!((ran.code, &ran.out[..]), (Some(1), ""), "{}", ran.err);
        assert!(ran.err.contains(why), "{:?}, not {why:?}, of {bytes:?}", ran.err);
        assert_eq!(self.names(), ["old"]);
        assert!(fs::read(self.old()).expect("OLD") == bytes, "OLD was changed");
    }
}

/// The new file byte for byte, and what a host answers that opens it.
fn whole(f: &Folder, seed: u64) {
    let mut r = Random(seed);
    let mut logs: Vec<Vec<Entry>> = SIZES.iter().map(|&n| first(n)).collect();
    logs.extend((0..HISTORIES).map(|_| narrow(History::grown(&mut r, FULL).entries)));
    for entries in logs {
        f.converted(f.convert(), &old_slots(&entries), &entries, "");
        let (asked, expected) = queries(&log_of(&entries));
        let ran = f.bench.run_with(f.bench.command(&f.new()), asked.as_bytes());
        assert_eq!((ran.code, &ran.err[..]), (Some(0), ""));
        assert_eq!(ran.out, expected);
        assert_eq!(fs::read(f.new()).expect("NEW"), slots_without_turns(&entries));
    }
}

/// The permissions are kept.
fn permissions(f: &Folder) {
    let entries = first(3);
    for mode in [0o600, 0o640, 0o666] {
        let set = fs::set_permissions(f.old(), fs::Permissions::from_mode(mode));
        set.expect("permissions of OLD");
        f.converted(f.convert(), &old_slots(&entries), &entries, "");
        let about = fs::metadata(f.new()).expect("NEW");
        assert_eq!(about.permissions().mode() & 0o777, mode);
    }
}

/// A last slot that was cut short, of zeros, or begun and then zeros, is left out. So the converter
/// agrees with what the earlier host dropped.
fn torn(f: &Folder) {
    let entries = first(MOST);
    for n in [0, 1, 9, MOST - 1] {
        let (before, good) = (&entries[..n], old_slots(&entries[..n]));
        let next = &old_slots(&entries[..n + 1])[n * OLD_SLOT..];
        let said = format!("record {} was not written to its end and is left out", n + 1);
        let left_out =
            |tail: &[u8]| f.converted(f.convert(), &[&good, tail].concat(), before, &said);
        for length in 1..OLD_SLOT {
            left_out(&next[..length]);
            left_out(&[0; OLD_SLOT][..length]);
        }
        left_out(&[0; OLD_SLOT]);
        for written in 1..OLD_SLOT {
            let begun = [&next[..written], &[0; OLD_SLOT][written..]].concat();
            if written <= OLD_RECORD {
                left_out(&begun);
            } else {
                let why = format!("record {} is damaged: checksum wrong, answer=0", n + 1);
                f.refused(f.convert(), &[&good[..], &begun].concat(), &why);
            }
        }
    }
}

/// A byte spoiled at every place, and more or other slots than a log can have.
fn damaged(f: &Folder) {
    let entries = first(MOST);
    let good = old_slots(&entries[..9]);
    for at in 0..good.len() {
        for change in [0x01, 0x10, 0x80, 0xff, good[at]] {
            let mut bytes = good.clone();
            bytes[at] ^= change;
            if bytes != good {
                let why = format!("record {} is damaged: checksum wrong", at / OLD_SLOT + 1);
                f.refused(f.convert(), &bytes, &why);
            }
        }
    }
    for (record, refusal) in &REFUSED {
        let firsts = BEFORE_REFUSED.iter().chain([record]).enumerate();
        let bytes: Vec<u8> = firsts.flat_map(|(i, first)| old_slot(i, &padded(first))).collect();
        let why = format!("record 4 is damaged: checksum right, {}\n", answer(*refusal));
        f.refused(f.convert(), &bytes, &why);
    }
    let all = old_slots(&entries);
    let more: [u8; OLD_RECORD] = padded(&[0, 1, 0, 0, 0, 0, 0, 0]);
    for (tail, why) in [
        (&good[..OLD_SLOT], "record 377 is damaged: checksum wrong, answer=12 "),
        (b"x", "record 377 is damaged: checksum wrong, answer=1 "),
        (&old_slot(MOST, &more), "record 377 is damaged: checksum right, answer=12 "),
    ] {
        f.refused(f.convert(), &[&all, tail].concat(), why);
    }
    /* An earlier host had no turns: its byte 7 is a zero. */
    for turn in [1, 2, 128, 255] {
        let mut take: [u8; OLD_RECORD] = padded(&BEFORE_REFUSED[0]);
        take[TURN] = turn;
        let why = "record 1 is damaged: a zero spoiled, answer=0 ";
        f.refused(f.convert(), &old_slot(0, &take), why);
        f.refused(f.convert(), &[&old_slot(0, &take), &good[OLD_SLOT..]].concat(), why);
        let why = "record 1 is damaged: checksum wrong, answer=0 ";
        f.refused(f.convert(), &take, why);
        f.refused(f.convert(), &take[..=TURN], why);
    }
    f.refused(f.convert(), b"text, and no records\n", "record 1 is damaged");
}

/// What the earlier host never wrote: a file of the new form, whole or cut within its first slot.
fn of_the_new_form(f: &Folder) {
    let why = "record 1 is damaged: checksum wrong, answer=0";
    for n in SIZES {
        if n > 0 {
            f.refused(f.convert(), &slots(&longest()[..n]), why);
            f.refused(f.convert(), &slots_without_turns(&longest_of_turn_1()[..n]), why);
        }
    }
    for length in OLD_SLOT + 1..SLOT {
        f.refused(f.convert(), &slots(&longest()[..1])[..length], why);
        f.refused(f.convert(), &slots_without_turns(&longest()[..1])[..length], why);
    }
}

/// NEW is there already, whatever it is, or cannot be made; OLD is not there, or no file.
fn no_place(f: &Folder) {
    let bytes = old_slots(&first(3));
    for taken in [&b""[..], b"somebody's file", &slots(&longest()[..2])] {
        f.put(&bytes);
        fs::write(f.new(), taken).expect("NEW");
        let ran = f.run(f.convert());
        assert_eq!((ran.code, &ran.out[..]), (Some(1), ""));
        assert!(ran.err.ends_with("new: File exists\n"), "{}", ran.err);
        assert_eq!(f.names(), ["new", "old"]);
        assert_eq!(fs::read(f.new()).expect("NEW"), taken);
    }
    f.put(&bytes);
    std::os::unix::fs::symlink("nowhere", f.new()).expect("a link");
    assert!(f.run(f.convert()).err.ends_with("new: File exists\n"));
    assert_eq!(f.names(), ["new", "old"]);
    let dir = f.dir.join(".");
    for (from, to, why) in [
        (f.old(), f.old(), "old: File exists\n"),
        (f.old(), dir.join("old"), "old: File exists\n"),
        (f.old(), f.dir.clone(), "File exists\n"),
        (f.old(), f.dir.join("nowhere/new"), "nowhere/new: No such file or directory\n"),
        (f.dir.join("nowhere"), f.new(), "nowhere: No such file or directory\n"),
        (f.dir.clone(), f.new(), "not a regular file\n"),
        ("/dev/null".into(), f.new(), "not a regular file\n"),
    ] {
        f.refused(f.command(&from, &to), &bytes, why);
    }
    for words in 0..4 {
        if words != 2 {
            let mut command = Command::new(&f.bench.converter);
            command.args(["old", "new", "more"].iter().take(words));
            let ran = f.run(command);
            assert!(ran.code == Some(2) && ran.err.starts_with("usage: "), "{}", ran.err);
        }
    }
    assert_eq!(fs::read(f.old()).expect("OLD"), bytes);
}

extern "C" {
    fn flock(fd: i32, operation: i32) -> i32;
}
const LOCK_EX: i32 = 2;

/// A host has OLD, whose lock is as the one here; and no host gets OLD while it is converted.
fn in_use(f: &Folder) {
    let entries = first(3);
    let bytes = old_slots(&entries);
    f.put(&bytes);
    let file = fs::File::open(f.old()).expect("OLD");
    assert_eq!(unsafe { flock(file.as_raw_fd(), LOCK_EX) }, 0);
    f.refused(f.convert(), &bytes, "old: in use by another program\n");
    drop(file);
    f.converted(f.convert(), &bytes, &entries, "");
    let kept_out = |_| {
        f.put(&old_slots(&first(MOST)));
        let mut command = f.faulty("pieces");
        command.stdout(Stdio::null()).stderr(Stdio::null());
        let (mut child, mut in_use) = (command.spawn().expect("a converter"), false);
        while child.try_wait().expect("the converter").is_none() {
            let host = f.run(f.bench.command(&f.old()));
            assert_eq!((host.code, &host.out[..]), (Some(1), ""));
            in_use |= host.err.ends_with("old: in use by another program\n");
        }
        in_use
    };
    assert!((0..50).any(kept_out), "a host had the file while it was converted");
}

/// Disks that fill up or fail, and streams that are full or closed, leave no NEW.
fn faults(f: &Folder) {
    let entries = first(3);
    let bytes = old_slots(&entries);
    for room in 0..=3 * SLOT {
        let commands = [
            (limited(f.convert(), room as u64), "new: File too large\n"),
            (f.faulty(&format!("full {room}")), "new: No space left on device\n"),
        ];
        for (command, why) in commands {
            if room < 3 * SLOT {
                f.refused(command, &bytes, why);
            } else {
                f.converted(command, &bytes, &entries, "");
            }
        }
    }
    /* The first sync is that of the file, the second that of its folder. */
    f.refused(f.faulty("sync 1"), &bytes, "new: Input/output error\n");
    f.refused(f.faulty("sync 2"), &bytes, ": Input/output error\n");
    f.converted(f.faulty("sync 3"), &bytes, &entries, "");
    f.converted(f.faulty("pieces"), &bytes, &entries, "");
    for (streams, why) in [
        ("> /dev/full", "standard output: No space left on device\n"),
        ("<&-", "standard input, output or error is closed\n"),
        (">&-", "standard input, output or error is closed\n"),
        ("2>&-", ""),
        (">&- 2>&-", ""),
    ] {
        let mut shell = Command::new("sh");
        shell.args(["-c", &format!("exec \"$0\" \"$1\" \"$2\" {streams}")]);
        shell.arg(&f.bench.converter).args([f.old(), f.new()]);
        f.refused(shell, &bytes, why);
    }
}

/// Killed at any time, it leaves the whole of NEW or nothing of it, and a second one makes NEW.
fn kills(f: &Folder, seed: u64) {
    let entries = first(MOST);
    let (bytes, new) = (old_slots(&entries), slots_without_turns(&entries));
    let start = Instant::now();
    f.converted(f.faulty("pieces"), &bytes, &entries, "");
    let most = start.elapsed().as_micros() as usize;
    let (mut r, mut midway, mut done) = (Random(seed), 0, 0);
    for _ in 0..KILLS {
        f.put(&bytes);
        let mut command = f.faulty("pieces");
        command.stdin(Stdio::null()).stdout(Stdio::null()).stderr(Stdio::null());
        let mut child = command.spawn().expect("the converter starts");
        sleep(Duration::from_micros(r.below(most) as u64));
        child.kill().expect("the converter is killed");
        child.wait().expect("the converter ended");
        let names = f.names();
        midway += names.iter().any(|name| name.starts_with("new.")) as usize;
        if names.iter().any(|name| name == "new") {
            done += 1;
        } else {
            let ran = f.run(f.convert());
            assert_eq!((ran.code, &ran.err[..]), (Some(0), ""));
        }
        assert!(fs::read(f.new()).expect("NEW") == new, "a NEW that is not whole");
        assert!(fs::read(f.old()).expect("OLD") == bytes, "OLD was changed");
    }
    assert!(midway > 0, "it was never killed while it wrote");
    println!("it was killed {KILLS} times, {midway} while it wrote, {done} when NEW was there");
}

/// The host says what the file is, answers nothing and leaves it as it is.
fn left_alone(b: &Bench, bytes: &[u8], why: &str) {
    b.put(bytes);
    let ran = b.run(b"take 15 7\noutcome 0\n");
    assert_eq!((ran.code, &ran.out[..]), (Some(1), ""), "{} of {bytes:?}", ran.err);
    assert!(ran.err.contains(why), "{:?}, not {why:?}, of {bytes:?}", ran.err);
    assert!(b.bytes() == bytes, "the host changed a file of an earlier one");
}

/// A host that is given a file of an earlier one, also with a last slot that was not written to its
/// end.
fn given_to_the_host(b: &Bench) {
    let entries = first(MOST);
    let path = b.file().display().to_string();
    let why = format!(
        "{path}: records of 12 bytes, of an earlier host; convert it with: convert {path} NEW\n"
    );
    for n in SIZES.into_iter().filter(|&n| n > 0) {
        let good = old_slots(&entries[..n]);
        left_alone(b, &good, &why);
        let next = old_slot(n, &padded(&[0, 1, 0, 7, 0, 0, 0, 0]));
        for length in 1..=OLD_SLOT {
            for tail in [&next[..length], &[0; OLD_SLOT][..length]] {
                left_alone(b, &[&good, tail].concat(), &why);
            }
        }
    }
    /* Without one whole slot there is no entry that was answered. Nothing says that it is old. */
    let only = &old_slots(&entries[..1]);
    for length in 1..=OLD_RECORD {
        b.put(&only[..length]);
        let ran = b.run(b"");
        let dropped = "record 1 was not written to its end and is dropped\n";
        assert!(ran.code == Some(0) && ran.err.ends_with(dropped), "{}", ran.err);
    }
    for length in OLD_RECORD + 1..OLD_SLOT {
        left_alone(b, &only[..length], "record 1 is damaged");
    }
}

/// A damaged file of an earlier host is not taken for one whose first slot was not written to its
/// end: of one slot, and with the start of a second one.
fn damaged_for_the_host(b: &Bench) {
    let good = old_slots(&first(2));
    for at in 0..OLD_SLOT {
        for change in [0x01, 0x10, 0x80, 0xff, good[at]] {
            if change == 0 {
                continue;
            }
            let mut bytes = good.clone();
            bytes[at] ^= change;
            for more in [0, 1, 4, 8, 12, 15, 16] {
                left_alone(b, &bytes[..OLD_SLOT + more], "record 1 is damaged");
            }
            bytes[OLD_SLOT..].fill(0);
            left_alone(b, &bytes, "record 1 is damaged");
        }
    }
}

/// A record whose update has, in its high half, the checksum that an earlier host would give it.
fn looks_old(index: usize, vote: [u8; 8]) -> [u8; RECORD] {
    let mut record: [u8; RECORD] = padded(&vote);
    let sum = checksum(index, &record[..OLD_RECORD]);
    record[OLD_RECORD..].copy_from_slice(&sum);
    record
}

/// A whole slot of the new form is one, whatever its update.
fn coincidence(b: &Bench) {
    for turn in [0, 1] {
        let (take, vote) = ([0, 1, 0, 0, 0, 0, 0, turn], [1, 1, 0, 0, 4, 1, 1, turn]);
        /* The first record of a log is a take, which has no update. So the log refuses this one. */
        let why = format!("record 1 is damaged: checksum right, {}\n", answer(8));
        left_alone(b, &slot(0, &looks_old(0, vote)), &why);
        for of in [0, 1] {
            let records = [padded(&take), looks_old(of, vote)];
            let file: Vec<u8> = (0..2).flat_map(|i| slot(i, &records[i])).collect();
            b.put(&file);
            let (asked, expected) =
                queries(&log_of(&records.map(|r| Entry::from_record(&r, FULL).expect("an entry"))));
            let ran = b.run(asked.as_bytes());
            assert_eq!((ran.code, &ran.err[..], ran.out), (Some(0), "", expected));
            assert_eq!(b.bytes(), file);
        }
    }
}

pub fn all(b: &Bench, seed: u64) {
    let f = Folder { bench: b, dir: b.dir.join("convert") };
    let _ = fs::remove_dir_all(&f.dir);
    fs::create_dir_all(&f.dir).expect("the folder");
    whole(&f, seed);
    permissions(&f);
    torn(&f);
    damaged(&f);
    of_the_new_form(&f);
    no_place(&f);
    in_use(&f);
    faults(&f);
    kills(&f, seed);
    println!("the converter makes the whole of a new file, or names what is wrong and makes none");
    given_to_the_host(b);
    damaged_for_the_host(b);
    coincidence(b);
    println!("the host leaves files of an earlier one as they are");
}
