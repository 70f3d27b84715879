//! example_test HOST CONVERT FAULTS DIR [SEED]: the example host and its converter from outside.
//! FAULTS is faults.c as a shared library, DIR a folder for files.

#[path = "../longest.rs"]
mod longest;
#[path = "../plain_log.rs"]
mod plain_log;
#[path = "../random.rs"]
mod random;

mod convert;
mod crash;
mod damage;
mod host;
mod lines;

fn main() {
    let words: Vec<String> = std::env::args().collect();
    let path = |i: usize| std::path::absolute(&words[i]).expect("a path");
    let seed = words.get(5).map_or(1, |seed| seed.parse().expect("a seed"));
    let bench = host::Bench { program: path(1), converter: path(2), faults: path(3), dir: path(4) };
    std::fs::create_dir_all(&bench.dir).expect("the folder");
    lines::all(&bench);
    damage::all(&bench);
    crash::all(&bench, seed);
    convert::all(&bench, seed);
}
