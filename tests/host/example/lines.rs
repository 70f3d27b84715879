//! Lines, good and bad: what they are answered, and that a bad one changes nothing.

use crate::host::{
    answer, line, lines, log_in, log_of, queries, slots, slots_without_turns, Bench, SLOTS,
};
use crate::longest::{longest, longest_in, longest_of_turn_1, longest_of_turn_1_in};
use crate::plain_log::{Entry, Limit, Vote, FULL, SMALL};

const TAKES: [Entry; 2] =
    [Entry::Take { process: 1, store: 0, turn: 1 }, Entry::Take { process: 2, store: 1, turn: 1 }];

const USAGE: &str = "error: unknown command; usage: take PROCESS STORE [TURN], \
    vote PROCESS BY STORE TX LIST commit|abort UPDATE [TURN], outcome TX, involvement TX STORE, \
    replay STORE";

/// Each line is given to a host that has TAKES. It must be answered so, and the file must stay.
fn unchanged(b: &Bench, cases: &[(Vec<u8>, String)]) {
    unchanged_in(b, FULL, cases);
}

/// The same, with a log of that limit.
fn unchanged_in(b: &Bench, limit: Limit, cases: &[(Vec<u8>, String)]) {
    b.put(&slots(&TAKES));
    let input: Vec<u8> = cases.iter().flat_map(|(line, _)| [&line[..], b"\n"].concat()).collect();
    let ran = b.run_with(b.with_limit(limit), &input);
    let out: Vec<&str> = ran.out.lines().collect();
    for (i, (line, expected)) in cases.iter().enumerate() {
        let line = String::from_utf8_lossy(line);
        assert_eq!(out.get(i), Some(&&expected[..]), "{:?}", &line[..line.len().min(120)]);
    }
    assert_eq!((out.len(), ran.code, &ran.err[..]), (cases.len(), Some(0), ""));
    assert_eq!(b.bytes(), slots(&TAKES), "a line that was refused changed the file");
}

fn case(line: &str, expected: &str) -> (Vec<u8>, String) {
    (line.as_bytes().to_vec(), expected.to_string())
}

/// The line of README.md, twice, and every command.
fn answers(b: &Bench) {
    b.put(b"");
    let readme = b"take 1 0\nvote 1 0 0 4 01 commit 0000000a\noutcome 4\n";
    assert_eq!(b.run(readme).out, "answer=0 accepted\nanswer=0 accepted\ntx=4 outcome=commit\n");
    let again = [&answer(12), &answer(10), "tx=4 outcome=commit\n"].join("\n");
    assert_eq!(b.run(readme).out, again);
    let more = "take 2 1\nvote 2 1 1 5 03 abort 00000000\noutcome 5\noutcome 6\n\
        involvement 5 0\ninvolvement 4 7\ninvolvement 6 0\nreplay 0\nreplay 1";
    let expected = "answer=0 accepted\nanswer=0 accepted\ntx=5 outcome=abort\ntx=6 outcome=open\n\
        tx=5 store=0 involved=yes\ntx=4 store=7 involved=no\ntx=6 store=0 involved=unknown\n\
        store=0 group=1 tx=4 upd=000000000000000a\nrows=1\nrows=0\n";
    assert_eq!(b.run(more.as_bytes()).out, expected);
}

/// Eight digits and sixteen give the same record; sixteen are printed.
fn updates(b: &Bench) {
    for (digits, update) in [
        ("00000000", 0),
        ("0000000000000000", 0),
        ("0a1b2c3d", 0x0a1b_2c3d),
        ("000000000a1b2c3d", 0x0a1b_2c3d),
        ("0000000100000000", 1 << 32),
        ("8000000000000000", 1 << 63),
        ("0123456789abcdef", 0x0123_4567_89ab_cdef),
        ("ffffffffffffffff", u64::MAX),
    ] {
        b.put(b"");
        let ran =
            b.run(format!("take 1 0\nvote 1 0 0 4 01 commit {digits}\nreplay 0\n").as_bytes());
        let row = format!("store=0 group=1 tx=4 upd={update:016x}\nrows=1\n");
        assert_eq!(ran.out, (answer(0) + "\n").repeat(2) + &row);
        assert_eq!(b.bytes(), slots(&[TAKES[0], vote(1, update)]));
    }
}

/// A commit vote of process 1 on tx 4 for store 0.
fn vote(turn: u8, update: u64) -> Entry {
    let (process, by, store, tx, list, commit) = (1, 0, 0, 4, 1, true);
    Entry::Vote(Vote { process, by, store, tx, list, commit, turn, update })
}

/// A turn that is not given, 0 and 1 give the same record. A machine that comes back takes its
/// store again and votes in its new turn.
fn turns(b: &Bench) {
    let one = [TAKES[0], vote(1, 10)];
    for turn in ["", " 0", " 1"] {
        b.put(b"");
        let ran =
            b.run(format!("take 1 0{turn}\nvote 1 0 0 4 01 commit 0000000a{turn}\n").as_bytes());
        assert_eq!(ran.out, (answer(0) + "\n").repeat(2));
        assert_eq!(b.bytes(), slots(&one));
    }
    b.put(b"");
    let back = [
        ("take 1 0", 0),
        ("take 1 0", 12),
        ("take 1 1", 11),
        ("take 1 1 255", 11),
        ("vote 1 0 0 4 01 commit 0000000a 2", 12),
        ("take 1 0 2", 0),
        ("take 1 0 2", 12),
        ("vote 1 0 0 4 01 commit 0000000a", 12),
        ("vote 1 0 0 4 01 commit 0000000a 0", 12),
        ("vote 1 0 0 4 01 commit 0000000a 3", 12),
        ("vote 1 0 0 4 01 commit 0000000a 2", 0),
        ("vote 1 0 0 4 01 commit 0000000a 3", 10),
        ("take 1 0 255", 0),
        ("take 1 0 255", 12),
    ];
    let asked: String = back.iter().map(|(line, _)| format!("{line}\n")).collect();
    let expected: String = back.iter().map(|&(_, number)| answer(number) + "\n").collect();
    assert_eq!(b.run(asked.as_bytes()).out, expected);
    let take = |turn| Entry::Take { process: 1, store: 0, turn };
    assert_eq!(b.bytes(), slots(&[take(1), take(2), vote(2, 10), take(255)]));
}

/// A file from before records had turns is read as it is, and goes on with turns.
fn without_turns(b: &Bench) {
    let entries = longest_of_turn_1();
    let log = log_of(&entries);
    let (asked, expected) = queries(&log);
    let file = slots_without_turns(&entries);
    b.put(&file);
    let ran = b.run(asked.as_bytes());
    assert_eq!((ran.out, &ran.err[..]), (expected, ""));
    assert!(b.bytes() == file, "the host changed a file without turns");
    let again: String = entries.iter().map(|e| answer(log.clone().enter(e)) + "\n").collect();
    assert_eq!(b.run(lines(&entries).as_bytes()).out, again);
    assert!(b.bytes() == file, "the host changed a file without turns");
    for (n, more) in [
        (3, vec![entries[3]]),
        (9, vec![Entry::Take { process: 1, store: 0, turn: 2 }, vote(2, 10)]),
        (9, vec![Entry::Take { process: 1, store: 0, turn: 255 }]),
    ] {
        b.put(&file[..slots(&entries[..n]).len()]);
        assert_eq!(b.run(lines(&more).as_bytes()).out, (answer(0) + "\n").repeat(more.len()));
        let whole = slots(&[&entries[..n], &more[..]].concat());
        let before = slots_without_turns(&entries[..n]);
        assert_eq!(b.bytes(), [&before, &whole[before.len()..]].concat());
    }
}

const NO_DECIMALS: [&str; 19] = [
    "4294967297",
    "-4294967294",
    "4294967296",
    "18446744073709551617",
    "99999999999999999999999",
    "-1",
    "+1",
    "-0",
    "01",
    "00",
    "0x1",
    "1a",
    "a",
    "1.0",
    "1e0",
    "\t1",
    "1\r",
    "1\t",
    "٣",
];

const NO_LISTS: [&str; 12] =
    ["1", "001", "100", "0g", "0A", "FF", "0x", "-1", "+1", "1\t", "\r1", "٣"];

const NO_UPDATES: [&str; 20] = [
    "",
    "a",
    "0000000",
    "000000000",
    "10000000a",
    "000000000000",
    "000000000000000",
    "00000000000000000",
    "10000000000000000",
    "00000000000000000000000000000000",
    "0000000A",
    "000000000000000A",
    "A000000000000000",
    "0x00000a",
    "0x0000000000000a",
    "-0000001",
    "+000000a",
    "0000000g",
    "000000000000000g",
    "0000000\r",
];

const NO_SAYS: [&str; 7] = ["Commit", "ABORT", "commi", "commits", "0", "1", "abort\r"];

/// Words that are no number, in each place for one.
fn numbers(b: &Bench) {
    let vote = "vote 1 0 0 4 01 commit 0000000a 1";
    let mut cases = Vec::new();
    for (good, places) in [
        ("take 3 2", 1..3),
        ("take 3 2 1", 1..4),
        (vote, 1..5),
        (vote, 8..9),
        ("outcome 4", 1..2),
        ("involvement 4 0", 1..3),
        ("replay 0", 1..2),
    ] {
        for place in places {
            put_in(&mut cases, good, place, &NO_DECIMALS, "is no decimal of 0 to 4294967295");
        }
    }
    put_in(&mut cases, vote, 5, &NO_LISTS, "is not 2 lower-case hexadecimal digits");
    put_in(&mut cases, vote, 6, &NO_SAYS, "is neither commit nor abort");
    put_in(&mut cases, vote, 7, &NO_UPDATES, "is not 16 or 8 lower-case hexadecimal digits");
    unchanged(b, &cases);
}

/// The good line with each bad word in that place.
fn put_in(cases: &mut Vec<(Vec<u8>, String)>, good: &str, place: usize, bad: &[&str], why: &str) {
    for word in bad {
        let mut words: Vec<&str> = good.split(' ').collect();
        words[place] = word;
        cases.push(case(&words.join(" "), &format!("error: '{word}' {why}")));
    }
}

/// Numbers that read and are outside their limits: the library's 2, not another number.
fn limits(b: &Bench) {
    let lines = [
        "take 0 2",
        "take 16 2",
        "take 257 2",
        "take 4294967295 2",
        "take 3 8",
        "take 3 256",
        "take 3 2 256",
        "take 3 2 257",
        "take 3 2 4294967295",
        "take 1 1 256",
        "vote 1 0 0 4 01 commit 0000000a 256",
        "vote 1 0 0 4 02 commit 0000000a 257",
        "vote 1 0 0 4 01 commit 0000000a 4294967295",
        "vote 1 8 0 4 01 commit 0000000a",
        "vote 1 0 256 4 01 commit 0000000a",
        "vote 1 0 0 32 01 commit 0000000a",
        "vote 16 0 0 4 01 commit 0000000a",
        "outcome 32",
        "outcome 4294967295",
        "involvement 32 0",
        "involvement 0 8",
        "replay 8",
        "replay 256",
    ];
    let mut cases: Vec<_> = lines.iter().map(|line| case(line, &answer(2))).collect();
    cases.push(case("vote 1 0 0 4 00 commit 0000000a", &answer(7)));
    cases.push(case("vote 1 0 0 4 01 abort 00000001", &answer(7)));
    cases.push(case("vote 1 0 0 4 01 abort 0100000000000000", &answer(7)));
    cases.push(case("vote 1 1 1 4 ff commit ffffffffffffffff", &answer(8)));
    unchanged(b, &cases);
}

/// Lines that are answered 2 with the small limit, and how the answer with the full one begins.
const OUTSIDE_SMALL: [(&str, &str); 21] = [
    ("take 3 3", "answer=0 "),
    ("take 3 7 255", "answer=0 "),
    ("take 1 3", "answer=11 "),
    ("take 3 8", "answer=2 "),
    ("take 3 258", "answer=2 "),
    ("vote 1 3 0 4 09 abort 00000000", "answer=8 "),
    ("vote 1 0 3 4 09 abort 00000000", "answer=0 "),
    ("vote 1 0 0 8 01 commit 0000000a", "answer=0 "),
    ("vote 1 0 0 31 01 commit 0000000a", "answer=0 "),
    ("vote 1 0 0 32 01 commit 0000000a", "answer=2 "),
    ("vote 1 0 0 4 09 commit 0000000a", "answer=0 "),
    ("vote 1 0 0 4 ff commit 0000000a", "answer=0 "),
    ("vote 1 0 0 4 08 commit 0000000a", "answer=7 "),
    ("vote 2 0 0 4 81 commit 0000000a", "answer=8 "),
    ("vote 1 0 0 4 11 commit 0000000a 2", "answer=12 "),
    ("outcome 8", "tx=8 outcome=open\n"),
    ("outcome 32", "answer=2 "),
    ("involvement 8 0", "tx=8 store=0 involved=unknown\n"),
    ("involvement 7 3", "tx=7 store=3 involved=unknown\n"),
    ("replay 3", "rows=0\n"),
    ("replay 8", "answer=2 "),
];

/// Lines outside the small limits, with either limit; and lines at the borders within them.
fn small_limits(b: &Bench) {
    let cases: Vec<_> = OUTSIDE_SMALL.iter().map(|(line, _)| case(line, &answer(2))).collect();
    unchanged_in(b, SMALL, &cases);
    for (line, full) in OUTSIDE_SMALL {
        b.put(&slots(&TAKES));
        let ran = b.run(format!("{line}\n").as_bytes());
        assert!(ran.out.starts_with(full), "{line}: {}", ran.out);
    }
    b.put(&slots(&TAKES));
    let within =
        "take 3 2\nvote 3 2 2 7 07 commit 0000000a\noutcome 7\ninvolvement 7 2\nreplay 2\n";
    let expected = "answer=0 accepted\nanswer=0 accepted\ntx=7 outcome=open\n\
        tx=7 store=2 involved=yes\nrows=0\n";
    assert_eq!(b.run_with(b.with_limit(SMALL), within.as_bytes()).out, expected);
}

/// A workshop that grows: its file is opened without -s from then on, and goes on there. Then it is
/// no file of a small log any more.
fn grows(b: &Bench) {
    let (few, more) = (longest_of_turn_1_in(SMALL), Entry::Take { process: 1, store: 3, turn: 1 });
    b.put(&slots(&few));
    let ran = b.run((line(&more) + "\n").as_bytes());
    assert_eq!((ran.out, &ran.err[..]), (answer(0) + "\n", ""));
    let grown = slots(&[&few[..], &[more]].concat());
    assert_eq!(b.bytes(), grown);
    let ran = b.run_with(b.with_limit(SMALL), b"outcome 0\n");
    let why = "record 70 is outside the limits of a small log; start without -s\n";
    assert_eq!((ran.code, &ran.out[..]), (Some(1), ""));
    assert!(ran.err.ends_with(why), "{}", ran.err);
    assert_eq!(b.bytes(), grown);
}

/// No command, words missing and words too many; one space between two.
fn words(b: &Bench) {
    let unknown = [
        "",
        " ",
        "  ",
        "tak 1 0",
        "taken 1 0",
        "Take 3 2",
        "TAKE 3 2",
        " take 3 2",
        "take\t3\t2",
        "what?",
        "take3 2",
        "\r",
        "votes 1 0 0 4 01 commit 0000000a",
        "help",
        "usage",
        "outcome4",
        "do=take proc=3 store=2",
        "a b c d e f g h i j k l m n o p q r s t u v w x y z",
    ];
    let mut cases: Vec<_> = unknown.iter().map(|line| case(line, USAGE)).collect();
    for (form, good, least) in [
        ("take PROCESS STORE [TURN]", "take 3 2 1", 3),
        (
            "vote PROCESS BY STORE TX LIST commit|abort UPDATE [TURN]",
            "vote 1 0 0 4 01 commit 0000000a 1",
            8,
        ),
        ("outcome TX", "outcome 4", 2),
        ("involvement TX STORE", "involvement 4 0", 3),
        ("replay STORE", "replay 0", 2),
    ] {
        let usage = format!("error: usage: {form}");
        let words: Vec<&str> = good.split(' ').collect();
        for n in 1..least {
            cases.push(case(&words[..n].join(" "), &usage));
        }
        for n in 1..words.len() {
            cases.push(case(&doubled(&words, n), &usage));
        }
        for more in [" ", " 0", " 0 0 0 0 0 0 0 0 0 0 0 0", " x", " \r"] {
            cases.push(case(&format!("{good}{more}"), &usage));
        }
    }
    cases.extend(empty_words());
    unchanged(b, &cases);
}

/// Two spaces before word n.
fn doubled(words: &[&str], n: usize) -> String {
    [words[..n].join(" "), words[n..].join(" ")].join("  ")
}

/// A space too many in a command without its turn: an empty word, and no usage.
fn empty_words() -> Vec<(Vec<u8>, String)> {
    let decimal = "error: '' is no decimal of 0 to 4294967295";
    let mut cases = Vec::new();
    for good in ["take 3 2", "vote 1 0 0 4 01 commit 0000000a"] {
        let words: Vec<&str> = good.split(' ').collect();
        for n in 1..=words.len() {
            let why = match n {
                5 => "error: '' is not 2 lower-case hexadecimal digits",
                6 => "error: '' is neither commit nor abort",
                7 => "error: '' is not 16 or 8 lower-case hexadecimal digits",
                _ => decimal,
            };
            let line = if n == words.len() { format!("{good} ") } else { doubled(&words, n) };
            cases.push(case(&line, why));
        }
    }
    cases
}

/// Lines of every length around the limit, and long ones: the end of each is a good command, so
/// a host that cuts lines would obey it.
fn lengths(b: &Bench) {
    let mut cases = Vec::new();
    let long = "error: a line of more than 100 bytes";
    for length in (8..=330).chain([511, 512, 1000, 4095, 4096, 4097, 8200, 65_536, 1 << 20]) {
        for fill in ["x", " "] {
            let line = fill.repeat(length - 8) + "take 3 2";
            let expected = if length > 100 { long } else { USAGE };
            if length > 8 {
                cases.push(case(&line, expected));
            }
        }
        let zeros = "0".repeat(length);
        let line = format!("outcome {zeros}");
        let no_decimal = format!("error: '{zeros}' is no decimal of 0 to 4294967295");
        cases.push(case(&line, if line.len() > 100 { long } else { &no_decimal }));
    }
    for line in [&b"take 3 2\0"[..], b"\0", b"\0take 3 2", b"take\x003 2", b"take 3 2\0 0"] {
        cases.push((line.to_vec(), "error: a line with a zero byte".to_string()));
    }
    unchanged(b, &cases);
}

/// The last line may lack its LF.
fn last_line(b: &Bench) {
    b.put(b"");
    assert_eq!(b.run(b"take 1 0").out, answer(0) + "\n");
    assert_eq!(b.bytes(), slots(&TAKES[..1]));
    assert_eq!(b.run(b"").out, "");
    let long = [b'x'; 101];
    assert_eq!(b.run(&long).out, "error: a line of more than 100 bytes\n");
}

/// These entries one after the other, in a log of the limit; a new host then tells of them what the
/// plain log does. So does one with the full limit.
fn whole_log(b: &Bench, entries: &[Entry], limit: Limit) {
    b.put(b"");
    let ran = b.run_with(b.with_limit(limit), lines(entries).as_bytes());
    assert_eq!(ran.out, (answer(0) + "\n").repeat(entries.len()));
    assert!(b.bytes() == slots(entries), "other records than those answered");
    let log = log_in(limit, entries);
    let (asked, expected) = queries(&log);
    let again: String = entries.iter().map(|e| answer(log.clone().enter(e)) + "\n").collect();
    for limit in [SMALL, FULL].into_iter().filter(|other| other.stores >= limit.stores) {
        assert_eq!(b.run_with(b.with_limit(limit), asked.as_bytes()).out, expected);
        assert_eq!(b.run_with(b.with_limit(limit), lines(entries).as_bytes()).out, again);
        assert!(b.bytes() == slots(entries), "a refused entry changed the file");
    }
}

/// A full file: what the log would accept has no place, and all else is as before.
fn full(b: &Bench) {
    let entries = longest();
    let (kept, log) = (&entries[..SLOTS], log_of(&entries[..SLOTS]));
    b.put(&slots(&kept[..SLOTS - 1]));
    let (last, next) = (line(&kept[SLOTS - 1]), line(&entries[SLOTS]));
    let ran = b.run(format!("{last}\n{next}\n{last}\n{next}\n").as_bytes());
    let answers = [answer(0), answer(6), answer(12), answer(6), String::new()];
    assert_eq!((ran.out, &ran.err[..]), (answers.join("\n"), ""));
    let (asked, expected) = queries(&log);
    assert_eq!(b.run((next + "\n" + &asked).as_bytes()).out, answer(6) + "\n" + &expected);
    assert!(b.bytes() == slots(kept), "an entry without place changed the file");
}

pub fn all(b: &Bench) {
    answers(b);
    updates(b);
    turns(b);
    without_turns(b);
    numbers(b);
    limits(b);
    small_limits(b);
    grows(b);
    words(b);
    lengths(b);
    last_line(b);
    for limit in [FULL, SMALL] {
        whole_log(b, &longest_of_turn_1_in(limit), limit);
        whole_log(b, &longest_in(limit)[..SLOTS], limit);
    }
    full(b);
    println!("the example host answers good lines, and refuses bad ones without a change");
}
