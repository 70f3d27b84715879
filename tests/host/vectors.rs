//! The calls of data/*.calls, by the library and by the Rust implementation, against data/*.out.
//! README.md of data says what the lines hold. Fails if one of the four calls never occurs with one
//! of the two limits, or with a wrong one.

mod library;
mod plain_log;

use plain_log::Numbers;
use std::fs;

/// `-` is an empty buffer.
fn bytes(hex: &str) -> Vec<u8> {
    let digits = if hex == "-" { "" } else { hex };
    (0..digits.len() / 2)
        .map(|i| u8::from_str_radix(&digits[2 * i..2 * i + 2], 16).expect("hex"))
        .collect()
}

fn hex(bytes: &[u8]) -> String {
    if bytes.is_empty() {
        return "-".to_string();
    }
    bytes.iter().map(|b| format!("{b:02x}")).collect()
}

type Add = fn(u32, &mut [u8], usize, &Numbers) -> u32;
type One = fn(u32, &[u8], usize, u32, &mut [u8]) -> u32;
type Two = fn(u32, &[u8], usize, u32, u32, &mut [u8]) -> u32;

struct Host {
    add: Add,
    outcome: One,
    involvement: Two,
    replay: One,
}

const HOSTS: [Host; 2] = [
    Host {
        add: library::add,
        outcome: library::outcome,
        involvement: library::involvement,
        replay: library::replay,
    },
    Host {
        add: plain_log::add,
        outcome: plain_log::outcome,
        involvement: plain_log::involvement,
        replay: plain_log::replay,
    },
];

const CALLS: [&str; 4] = ["apply", "outcome", "involvement", "replay"];
const LIMITS: [&str; 3] = ["8", "3", "a wrong limit"];

/// Where the call and its limit stand in CALLS and LIMITS.
fn kind(line: &str) -> (usize, usize) {
    let mut words = line.split(' ');
    let mut place = |names: &[&str]| {
        let word = words.next().expect("a word");
        names.iter().position(|&name| name == word)
    };
    (place(&CALLS).expect("a call"), place(&LIMITS).unwrap_or(LIMITS.len() - 1))
}

fn called(host: &Host, line: &str) -> String {
    let words: Vec<&str> = line.split(' ').collect();
    let number = |i: usize| words[i].parse::<u32>().expect("a number");
    let stores = number(1);
    let mut records = bytes(words[2]);
    let count: usize = words[3].parse().expect("a count");
    let last: usize = words[words.len() - 1].parse().expect("a number");
    let mut out = if words[0] == "apply" { Vec::new() } else { vec![0xee; last] };
    let answer = match words[0] {
        "apply" => {
            let update = words[12].parse().expect("an update");
            let n = Numbers { first: std::array::from_fn(|i| number(4 + i)), update };
            (host.add)(stores, &mut records, count, &n)
        }
        "outcome" => (host.outcome)(stores, &records, count, number(4), &mut out),
        "involvement" => {
            (host.involvement)(stores, &records, count, number(4), number(5), &mut out)
        }
        "replay" => (host.replay)(stores, &records, count, number(4), &mut out),
        other => panic!("{other}"),
    };
    format!("{answer} {} {}", hex(&records), hex(&out))
}

fn main() {
    let dir = std::env::args().nth(1).expect("the folder of the vectors");
    let mut names: Vec<String> = fs::read_dir(&dir)
        .expect("the folder")
        .map(|f| f.expect("a file").path().to_string_lossy().into_owned())
        .filter(|f| f.ends_with(".calls"))
        .collect();
    names.sort();
    let mut ran = [[0; LIMITS.len()]; CALLS.len()];
    for name in &names {
        let calls = fs::read_to_string(name).expect("calls");
        let expected = fs::read_to_string(name.replace(".calls", ".out")).expect("expected lines");
        assert_eq!(calls.lines().count(), expected.lines().count(), "{name}");
        for (i, (call, line)) in calls.lines().zip(expected.lines()).enumerate() {
            for host in &HOSTS {
                assert_eq!(called(host, call), line, "{name}, line {}", i + 1);
            }
            let (call, limit) = kind(call);
            ran[call][limit] += 1;
        }
    }
    for (call, ran) in CALLS.iter().zip(ran) {
        for (limit, ran) in LIMITS.iter().zip(ran) {
            assert!(ran > 0, "no {call} with {limit} in {dir}");
        }
    }
    let all: usize = ran.as_flattened().iter().sum();
    println!("{all} calls of {} files as expected", names.len());
}
