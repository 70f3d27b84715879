//! The job of `plain` in plain Rust, for comparison: no proofs, a heap, one read of the input, and
//! the log of the tests, changed in place.

#[path = "../tests/host/plain_log.rs"]
mod plain_log;
mod step_file;

use plain_log::{Entry, Log};
use step_file::{answers, print_log, program, step, Fields};

fn entry(fields: &mut Fields) -> Option<Entry> {
    match fields.word(b"do=", &[(b"take", true), (b"vote", false)])? {
        true => fields.take(),
        false => fields.vote(),
    }
}

fn run(input: &[u8], out: &mut Vec<u8>) {
    let mut log = Log::new();
    answers(input, out, |line| step(line, entry).map_or_else(|refusal| refusal, |e| log.enter(&e)));
    print_log(out, &log);
}

fn main() {
    program(run);
}
