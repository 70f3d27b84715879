//! The job of `finish` in plain Rust, for comparison: the world of `world.rs`, and the list that
//! closes one more instance.

#[allow(dead_code)]
#[path = "world.rs"]
mod world;

use std::io::Write;
use world::step_file::{each_line, program, LINES};
use world::{Role, World, MESSAGES};

const INSTANCES: u8 = 16;

/// The lowest ballot with which the coordinator can close its current instance.
fn ballot_of(world: &World, coord: usize) -> Option<u8> {
    let c = &world.coordinators[coord];
    if world.is_down(Role::Coord, coord as u8) || c.queue.is_empty() || c.applied >= INSTANCES {
        return None;
    }
    let slots = &world.slots[..world.acceptors as usize];
    let promised = slots.iter().map(|slots| slots[c.applied as usize].promised).max()?;
    let above = promised.max(c.opened);
    (above..255).map(|b| b + 1).find(|&b| b as usize % 3 == coord)
}

fn put_finishing(world: &World, out: &mut Vec<u8>) {
    let n = world.acceptors as usize;
    let m = n / 2 + 1;
    let is_up = |&a: &usize| !world.is_down(Role::Acceptor, a as u8);
    let up: Vec<usize> = (0..n).filter(is_up).take(m).collect();
    if up.len() < m || MESSAGES - world.sent() < 2 * n + 2 * m {
        return;
    }
    let Some((c, ballot)) = (0..3).find_map(|c| ballot_of(world, c).map(|b| (c, b))) else {
        return;
    };
    let inst = world.coordinators[c].applied;
    for (step, first) in [("open", world.sent()), ("propose", world.sent() + n + m)] {
        writeln!(out, "do={step} coord={c} inst={inst} ballot={ballot}").unwrap();
        for number in up.iter().map(|a| first + a).chain(first + n..first + n + m) {
            writeln!(out, "do=deliver msg={number}").unwrap();
        }
    }
}

fn run(input: &[u8], out: &mut Vec<u8>) {
    let mut world = World::fresh();
    each_line(input, |i, line| {
        if i < LINES {
            world.line(line);
        }
    });
    put_finishing(&world, out);
}

fn main() {
    program(run);
}
