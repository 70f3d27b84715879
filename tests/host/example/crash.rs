//! Hosts that are killed, disks that fill up or fail, two hosts at once.

use crate::host::{answer, line, lines, slots, Bench, Running, SLOT};
use crate::longest::longest;
use crate::plain_log::{Entry, Log};
use crate::random::{sensible, Random};
use std::fs;
use std::io::{BufRead, Read, Write};
use std::os::unix::process::CommandExt;
use std::process::{Command, Stdio};
use std::thread::sleep;
use std::time::Duration;

const ROUNDS: usize = 300;

/// Entries to ask for, the answers that they will get, and those that will be accepted.
struct Script {
    lines: String,
    answers: Vec<u32>,
    accepted: Vec<Entry>,
}

fn script(r: &mut Random, kept: &[Entry]) -> Script {
    let mut log = Log::new();
    kept.iter().for_each(|e| assert_eq!(log.enter(e), 0));
    let mut script = Script { lines: String::new(), answers: Vec::new(), accepted: Vec::new() };
    for _ in 0..r.below(80) + 1 {
        let e = sensible(r, &log);
        let answer = log.enter(&e);
        script.lines += &(line(&e) + "\n");
        script.answers.push(answer);
        if answer == 0 {
            script.accepted.push(e);
        }
    }
    script
}

/// A host is given the script and killed, some time after one of its answers or after its start.
/// How many lines it answered.
fn killed(b: &Bench, r: &mut Random, script: &Script) -> usize {
    let fault = r.pick(&["", "lost", "pieces"]);
    let mut host = Running::start(b.faulty(fault));
    host.input.write_all(script.lines.as_bytes()).expect("the host reads");
    let mut out = String::new();
    for _ in 0..r.below(script.answers.len()) {
        host.output.read_line(&mut out).expect("an answer");
    }
    let most = r.pick(&[10, 200, 3_000]);
    sleep(Duration::from_micros(r.below(most) as u64));
    host.kill();
    host.output.read_to_string(&mut out).expect("the other answers");
    let expected: String = script.answers.iter().map(|&n| answer(n) + "\n").collect();
    assert!(expected.starts_with(&out) && (out.is_empty() || out.ends_with('\n')), "{out}");
    out.lines().count()
}

/// Every entry that was answered is in the file, once and in order, and at most the one after it.
fn kills(b: &Bench, seed: u64) {
    let mut r = Random(seed);
    let (mut kept, mut midway, mut in_flight, mut answered) = (Vec::new(), 0, 0, 0);
    b.put(b"");
    for _ in 0..ROUNDS {
        if kept.len() > 60 {
            kept.clear();
            b.put(b"");
        }
        let script = script(&mut r, &kept);
        if let (true, Some(e)) = (r.once_in(4), script.accepted.first()) {
            let next = slots(&[&kept[..], &[*e]].concat());
            b.put(&next[..next.len() - 1 - r.below(SLOT)]);
        }
        let lines = killed(b, &mut r, &script);
        let sure = script.answers[..lines].iter().filter(|&&n| n == 0).count();
        let ran = b.run(b"");
        assert_eq!(ran.code, Some(0), "{}", ran.err);
        let there = b.bytes().len() / SLOT - kept.len();
        assert!(there == sure || there == sure + 1, "{sure} answered, {there} there");
        kept.extend(&script.accepted[..there]);
        assert!(b.bytes() == slots(&kept), "other records than those answered");
        midway += (lines > 0 && lines < script.answers.len()) as usize;
        in_flight += there - sure;
        answered += sure;
    }
    assert!(midway >= ROUNDS / 10 && answered > ROUNDS, "{midway} rounds midway");
    println!(
        "it was killed {ROUNDS} times, {midway} between its answers: {answered} answered entries \
         are there, and {in_flight} without an answer"
    );
}

extern "C" {
    fn setrlimit(resource: i32, limits: *const [u64; 2]) -> i32;
    fn signal(number: i32, handler: usize) -> usize;
}
const RLIMIT_FSIZE: i32 = 1;
const SIGXFSZ: i32 = 25;
const SIG_IGN: usize = 1;

/// No file of this program may become longer: writing is cut short there, and then fails.
pub fn limited(mut command: Command, bytes: u64) -> Command {
    let limit = move || unsafe {
        signal(SIGXFSZ, SIG_IGN);
        assert_eq!(setrlimit(RLIMIT_FSIZE, &[bytes, bytes]), 0);
        Ok(())
    };
    unsafe { command.pre_exec(limit) };
    command
}

/// The host answers `fit` entries of five, says why it stops, and a new one goes on from there.
fn stops_after(b: &Bench, command: Command, fit: usize, there: usize, why: &str) {
    let entries = &longest()[..5];
    let lines = lines(entries);
    b.put(b"");
    let ran = b.run_with(command, lines.as_bytes());
    assert_eq!(ran.out, (answer(0) + "\n").repeat(fit), "{}", ran.err);
    assert!(ran.code == Some(1) && ran.err.ends_with(&format!("{why}\n")), "{}", ran.err);
    assert!(b.bytes().starts_with(&slots(&entries[..fit])));
    let ran = b.run(lines.as_bytes());
    let rest = (answer(12) + "\n").repeat(there) + &(answer(0) + "\n").repeat(5 - there);
    assert_eq!((ran.code, ran.out), (Some(0), rest), "{}", ran.err);
    assert_eq!(b.bytes(), slots(entries));
}

/// Room for a number of bytes and no more, by the system's own limit and by a full disk.
fn full(b: &Bench) {
    for bytes in 0..5 * SLOT {
        let fit = bytes / SLOT;
        let limited = limited(b.command(&b.file()), bytes as u64);
        stops_after(b, limited, fit, fit, "File too large");
        let full = b.faulty(&format!("full {bytes}"));
        stops_after(b, full, fit, fit, "No space left on device");
    }
}

/// With a new file, the first fsync is that of the folder; each of the others is before an answer.
fn failed_syncs(b: &Bench) {
    for n in 1..=6 {
        let fit = if n == 1 { 0 } else { n - 2 };
        let there = if n == 1 { 0 } else { n - 1 };
        let failing = b.faulty(&format!("sync {n}"));
        stops_after(b, failing, fit, there, "Input/output error");
    }
    /* At a start: where a record was dropped, the last record, and the folder. */
    for (tail, n) in [(&b""[..], 1), (b"", 2), (&[0; 5], 1), (&[0; 5], 2), (&[0; 5], 3)] {
        b.put(&[&slots(&longest()[..3]), tail].concat());
        let ran = b.run_with(b.faulty(&format!("sync {n}")), b"outcome 0\n");
        assert_eq!((ran.code, &ran.out[..]), (Some(1), ""), "{}", ran.err);
        assert!(b.bytes().starts_with(&slots(&longest()[..3])));
    }
}

/// Reading and writing byte by byte, and interrupted, change nothing.
fn pieces(b: &Bench) {
    let entries = &longest()[..40];
    b.put(b"");
    let ran = b.run_with(b.faulty("pieces"), lines(&entries[..30]).as_bytes());
    assert_eq!(ran.out, (answer(0) + "\n").repeat(30), "{}", ran.err);
    let ran = b.run_with(b.faulty("pieces"), lines(entries).as_bytes());
    assert!(ran.out.ends_with(&(answer(0) + "\n").repeat(10)), "{}", ran.err);
    assert_eq!(b.bytes(), slots(entries));
}

/// An answer that nobody can read stops the host; its entry is on the disk.
fn no_output(b: &Bench) {
    b.put(b"");
    let mut command = b.command(&b.file());
    command.stdin(Stdio::piped()).stdout(fs::File::create("/dev/full").expect("/dev/full"));
    let mut host = command.stderr(Stdio::piped()).spawn().expect("the host starts");
    let mut input = host.stdin.take().expect("its input");
    input.write_all(b"take 1 0\ntake 2 1\n").expect("the host reads");
    drop(input);
    let output = host.wait_with_output().expect("the host ends");
    assert_eq!(output.status.code(), Some(1));
    assert_eq!(output.stderr, b"standard output: No space left on device\n");
    assert_eq!(b.bytes(), slots(&[Entry::Take { process: 1, store: 0, turn: 1 }]));
}

/// The second host at one file says so and stops; after the first ended, however, there is none.
fn two_hosts(b: &Bench) {
    b.put(b"");
    for round in 1..=5u8 {
        let mut first = Running::start(b.command(&b.file()));
        assert_eq!(first.ask(&format!("take {round} {round}")), answer(0) + "\n");
        let before = b.bytes();
        let second = b.run(b"take 9 0\noutcome 0\n");
        assert_eq!((second.code, &second.out[..]), (Some(1), ""));
        assert!(second.err.ends_with(": in use by another program\n"), "{}", second.err);
        assert_eq!(b.bytes(), before);
        assert_eq!(first.ask("outcome 0"), "tx=0 outcome=open\n");
        first.kill();
        assert_eq!(b.run(b"outcome 0\n").out, "tx=0 outcome=open\n");
    }
    assert_eq!(b.bytes().len(), 5 * SLOT);
}

/// What is no file of records.
fn no_file(b: &Bench) {
    for (path, why) in [
        (b.dir.clone(), "Is a directory"),
        ("/dev/full".into(), "not a regular file"),
        ("/dev/null".into(), "not a regular file"),
        (b.dir.join("nowhere/records"), "No such file or directory"),
    ] {
        let ran = b.run_with(b.command(&path), b"outcome 0\n");
        assert_eq!((ran.code, &ran.out[..]), (Some(1), ""));
        assert!(ran.err.ends_with(&format!("{why}\n")), "{}", ran.err);
    }
    let _ = fs::remove_file(b.dir.join("no"));
    for words in [&[][..], &["-s"], &["-x", "no"], &["no", "more"], &["-s", "no", "more"]] {
        let mut command = Command::new(&b.program);
        command.args(words).current_dir(&b.dir);
        let ran = b.run_with(command, b"outcome 0\n");
        assert_eq!((ran.code, &ran.out[..]), (Some(2), ""), "{words:?}");
        assert!(ran.err.contains("usage: ") && ran.err.ends_with(" [-s] FILE\n"), "{}", ran.err);
        assert!(!b.dir.join("no").exists(), "{words:?}");
    }
    let _ = fs::remove_file(b.file());
    assert_eq!(b.run(b"take 1 0\n").out, answer(0) + "\n");
    assert_eq!(b.bytes().len(), SLOT);
}

/// With a standard stream closed, the file would get its number, and what is printed to it.
fn closed_streams(b: &Bench) {
    b.put(&slots(&longest()[..2]));
    for closed in ["<&-", ">&-", "2>&-", ">&- 2>&-", "<&- >&- 2>&-"] {
        let mut shell = Command::new("sh");
        let host = format!("exec \"$0\" \"$1\" {closed}");
        shell.args(["-c", &host]).args([b.program.as_path(), &b.file()]);
        let ran = b.run_with(shell, b"take 9 0\noutcome 0\nfoo\n");
        assert_eq!((ran.code, &ran.out[..]), (Some(1), ""), "{}", ran.err);
        assert_eq!(b.bytes(), slots(&longest()[..2]), "{closed}");
    }
}

pub fn all(b: &Bench, seed: u64) {
    kills(b, seed);
    full(b);
    failed_syncs(b);
    pieces(b);
    no_output(b);
    two_hosts(b);
    no_file(b);
    closed_streams(b);
    println!("it answers nothing that is not on the disk, and only one at a time has the file");
}
