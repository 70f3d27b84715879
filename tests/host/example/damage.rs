//! Files that are not as a host left them: what was not written to its end is dropped, and any
//! other damage is named and left as it is.

use crate::host::{
    answer, checksum, crc32, slot, slots, slots_without_turns, Bench, FILLED, SLOT, SLOTS,
};
use crate::longest::{longest, longest_of_turn_1};
use crate::plain_log::{Entry, Limit, Vote, FULL, RECORD, SMALL, TURN};
use std::collections::HashSet;

/// The host starts, says that it drops this record, and leaves the file so.
fn dropped(b: &Bench, bytes: &[u8], record: usize, left: &[u8]) {
    b.put(bytes);
    let ran = b.run(b"outcome 31\n");
    let said = format!("record {record} was not written to its end and is dropped\n");
    assert!(ran.err.ends_with(&said), "{:?} of {bytes:?}", ran.err);
    assert_eq!((ran.code, &ran.out[..]), (Some(0), "tx=31 outcome=open\n"));
    assert_eq!(b.bytes(), left, "what is left of {bytes:?}");
    let again = b.run(b"");
    assert_eq!((again.code, &again.err[..]), (Some(0), ""));
}

/// The host names this record and stops; it answers nothing and leaves the file as it was.
fn damaged(b: &Bench, bytes: &[u8], record: usize, why: &str) {
    stopped(b, FULL, bytes, &format!("record {record} is damaged: {why}"));
}

/// The host with that limit says this and stops; it answers nothing and leaves the file as it was.
fn stopped(b: &Bench, limit: Limit, bytes: &[u8], said: &str) {
    b.put(bytes);
    let ran = b.run_with(b.with_limit(limit), b"take 15 7\noutcome 0\n");
    assert!(ran.err.contains(said), "{:?}, not {said:?}, of {bytes:?}", ran.err);
    assert_eq!((ran.code, &ran.out[..]), (Some(1), ""));
    assert!(b.bytes() == bytes, "the host changed a file that it cannot use");
}

fn with_tail(entries: &[Entry], tail: &[u8]) -> Vec<u8> {
    [&slots(entries), tail].concat()
}

/// A last slot that was cut short, within its zeros too, of zeros, or begun and then zeros.
fn torn(b: &Bench) {
    let entries = longest();
    for n in [0, 1, 9, 376, SLOTS - 1] {
        let (before, good) = (&entries[..n], slots(&entries[..n]));
        let next = &slots(&entries[..n + 1])[n * SLOT..];
        for length in 1..SLOT {
            dropped(b, &with_tail(before, &next[..length]), n + 1, &good);
            dropped(b, &with_tail(before, &[0; SLOT][..length]), n + 1, &good);
        }
        dropped(b, &with_tail(before, &[0; SLOT]), n + 1, &good);
        for written in 1..FILLED {
            let begun = [&next[..written], &[0; SLOT][written..]].concat();
            if written <= RECORD {
                dropped(b, &with_tail(before, &begun), n + 1, &good);
            } else {
                /* Part of a checksum: as with a spoiled byte, so nothing is dropped. */
                damaged(b, &with_tail(before, &begun), n + 1, "checksum wrong, answer=0");
            }
        }
    }
}

/// What the host says if that byte of a slot is spoiled.
fn spoiled_at(at: usize) -> &'static str {
    if at < FILLED {
        "checksum wrong, answer="
    } else {
        "a zero spoiled, answer=0 "
    }
}

/// A last slot that the file ends within, and that is not the start of a slot.
fn cut_and_spoiled(b: &Bench) {
    let entries = longest();
    let vote = entries.iter().position(|e| matches!(e, Entry::Vote(_))).expect("a vote");
    for n in [0, 1, vote] {
        let (before, next) = (&entries[..n], slot(n, &entries[n].to_record()));
        for length in RECORD + 1..SLOT {
            for at in RECORD..length {
                let mut tail = next[..length].to_vec();
                tail[at] ^= 0x10;
                damaged(b, &with_tail(before, &tail), n + 1, spoiled_at(at));
            }
        }
    }
    /* A take is 0 but for its kind, process, store and turn, and the first record is no vote. */
    for at in [2].into_iter().chain(4..TURN).chain(TURN + 1..RECORD) {
        let mut take = slot(0, &entries[0].to_record());
        take[at] = 1;
        damaged(b, &take[..=at], 1, "checksum wrong, answer=1");
        let vote = slot(0, &entries[vote].to_record());
        damaged(b, &vote[..=at], 1, "checksum wrong");
    }
    for turn in [0, 1, 2, 128, 255] {
        let mut take = slot(0, &entries[0].to_record());
        take[TURN] = turn;
        dropped(b, &take[..=TURN], 1, b"");
        dropped(b, &take[..RECORD], 1, b"");
        let vote = slot(0, &entries[vote].to_record());
        damaged(b, &vote[..=TURN], 1, "checksum wrong");
    }
    /* Without a checksum there are only zeros behind. */
    for at in FILLED..SLOT {
        let mut take = slot(0, &entries[0].to_record());
        take[RECORD..FILLED].fill(0);
        take[at] = 1;
        damaged(b, &take[..=at], 1, "checksum wrong, answer=0");
        damaged(b, &take, 1, "checksum wrong, answer=0");
    }
}

/// Only the last slot can be one that was not written to its end.
fn more_than_the_last(b: &Bench) {
    let entries = &longest()[..6];
    damaged(b, &with_tail(entries, &[0; 2 * SLOT]), 7, "checksum wrong, answer=2");
    damaged(b, &with_tail(entries, &[0; SLOT + 1]), 7, "checksum wrong");
    damaged(b, &[0; 2 * SLOT], 1, "checksum wrong");
    let mut cut = slots(entries);
    cut[3 * SLOT + RECORD..4 * SLOT].fill(0);
    damaged(b, &cut, 4, "checksum wrong, answer=0");
    for byte in 0..SLOT {
        let mut shorter = slots(entries);
        shorter.remove(2 * SLOT + byte);
        /* One zero less, and the 0 at which the next take begins: the slot is as it was. */
        let record = if byte < FILLED { 3 } else { 4 };
        damaged(b, &shorter, record, "checksum wrong");
    }
}

/// Takes and votes of turn 1 and, at the end, of turn 255.
fn to_spoil() -> Vec<Entry> {
    let mut entries = longest_of_turn_1()[..10].to_vec();
    entries.push(Entry::Take { process: 15, store: 7, turn: 255 });
    assert_eq!(entries[7], Entry::Take { process: 15, store: 7, turn: 1 });
    entries.push(Entry::Vote(Vote {
        process: 15,
        by: 7,
        store: 7,
        tx: 9,
        list: 0xff,
        commit: true,
        turn: 255,
        update: 0x0123_4567_89ab_cdef,
    }));
    entries
}

/// A byte spoiled, at every byte of every slot; of the last record and its checksum to every value.
fn spoiled(b: &Bench) {
    let entries = to_spoil();
    let good = slots(&entries);
    for at in 0..good.len() {
        let record = at / SLOT + 1;
        let last = record == entries.len() && at % SLOT < FILLED;
        for change in 1..=255u8 {
            let zeroed = good[at] ^ change == 0;
            if last || zeroed || [0x01, 0x10, 0x80, 0xff].contains(&change) {
                let mut bytes = good.clone();
                bytes[at] ^= change;
                damaged(b, &bytes, record, spoiled_at(at % SLOT));
            }
        }
    }
    /* In a file without turns too, a turn that comes up is damage. */
    let good = slots_without_turns(&longest_of_turn_1()[..9]);
    for record in 1..=9 {
        for turn in [1, 2, 128, 255] {
            let mut bytes = good.clone();
            bytes[(record - 1) * SLOT + TURN] = turn;
            damaged(b, &bytes, record, "checksum wrong, answer=");
        }
    }
}

/// Good slots in places that are not theirs.
fn misplaced(b: &Bench) {
    let good = slots(&longest()[..8]);
    for at in 0..7 {
        let (here, there) = (at * SLOT, (at + 1) * SLOT);
        let mut swapped = good.clone();
        (0..SLOT).for_each(|i| swapped.swap(here + i, there + i));
        damaged(b, &swapped, at + 1, "checksum wrong");
        let mut missing = good.clone();
        missing.drain(here..there);
        damaged(b, &missing, at + 1, "checksum wrong");
        let twice = [&good[..there], &good[here..]].concat();
        damaged(b, &twice, at + 2, "checksum wrong");
    }
}

/// Bytes of somebody else at the end, or from the start.
fn garbage(b: &Bench) {
    let text = "Somebody wrote a text of some length to the end of the file of records.\n";
    for length in 1..=text.len() {
        damaged(b, &with_tail(&longest()[..3], &text.as_bytes()[..length]), 4, "checksum wrong");
        damaged(b, &text.as_bytes()[..length], 1, "checksum wrong, answer=1");
    }
    damaged(b, &with_tail(&longest()[..3], b"\n"), 4, "checksum wrong");
    damaged(b, &with_tail(&longest()[..3], &[0xff; SLOT]), 4, "checksum wrong");
    /* Records without checksums, as a host may keep them elsewhere. */
    let plain: Vec<u8> = longest()[..4].iter().flat_map(|e| e.to_record()).collect();
    damaged(b, &plain, 1, "checksum wrong, answer=0");
}

/// Two takes and a vote, and records that the log refuses after them, by their first eight bytes;
/// the update is 0.
pub const BEFORE_REFUSED: [[u8; 8]; 3] =
    [[0, 1, 0, 0, 0, 0, 0, 0], [0, 2, 0, 1, 0, 0, 0, 0], [1, 1, 0, 0, 4, 3, 1, 0]];
pub const REFUSED: [([u8; 8], u32); 11] = [
    ([2, 3, 0, 2, 0, 0, 0, 0], 1),
    ([0, 3, 0, 2, 0, 0, 1, 0], 1),
    ([0, 16, 0, 2, 0, 0, 0, 0], 2),
    ([0, 3, 0, 8, 0, 0, 0, 0], 2),
    ([1, 2, 1, 1, 4, 1, 1, 0], 7),
    ([1, 3, 1, 1, 4, 3, 1, 0], 8),
    ([1, 2, 1, 1, 4, 7, 1, 0], 9),
    ([1, 1, 0, 0, 4, 3, 1, 0], 10),
    ([0, 1, 0, 2, 0, 0, 0, 0], 11),
    ([0, 1, 0, 1, 0, 0, 0, 0], 11),
    ([0, 1, 0, 0, 0, 0, 0, 0], 12),
];
/// The same, where records have turns.
const REFUSED_WITH_TURNS: [([u8; 8], u32); 4] = [
    ([0, 1, 0, 2, 0, 0, 0, 2], 11),
    ([0, 1, 0, 0, 0, 0, 0, 1], 12),
    ([1, 1, 0, 0, 5, 1, 1, 2], 12),
    ([1, 2, 1, 1, 4, 3, 1, 255], 12),
];

/// The eight bytes, and zeros up to the size of a record.
pub fn padded<const N: usize>(first: &[u8; 8]) -> [u8; N] {
    std::array::from_fn(|i| *first.get(i).unwrap_or(&0))
}

/// Whole slots with a record that the log refuses: the record and its refusal are named.
fn refused(b: &Bench) {
    let slot_of = |i: usize, first: &[u8; 8]| slot(i, &padded(first));
    for (record, refusal) in REFUSED.iter().chain(&REFUSED_WITH_TURNS) {
        let mut bytes: Vec<u8> = Vec::new();
        for (i, first) in BEFORE_REFUSED.iter().chain([record]).enumerate() {
            bytes.extend(slot_of(i, first));
        }
        let why = format!("checksum right, {}\n", answer(*refusal));
        damaged(b, &bytes, 4, &why);
        bytes.extend(slot_of(4, &[0, 3, 0, 2, 0, 0, 0, 0]));
        damaged(b, &bytes, 4, &why);
    }
}

/// Records that a full log accepts after BEFORE_REFUSED, and a small one refuses, by their first
/// eight bytes.
const OUTSIDE_SMALL: [[u8; 8]; 6] = [
    [0, 3, 0, 3, 0, 0, 0, 1],
    [0, 3, 0, 7, 0, 0, 0, 1],
    [1, 1, 0, 3, 5, 9, 0, 1],
    [1, 1, 0, 0, 8, 1, 1, 1],
    [1, 1, 0, 0, 31, 1, 1, 1],
    [1, 1, 0, 0, 5, 9, 1, 1],
];

/// A file of a full log, given to a host with the small limit: it names the first record that is
/// outside, wherever this stands. What is wrong with a slot goes before.
fn of_a_full_log(b: &Bench) {
    let file = |firsts: &[[u8; 8]]| -> Vec<u8> {
        firsts.iter().enumerate().flat_map(|(i, first)| slot(i, &padded(first))).collect()
    };
    let outside = "record 4 is outside the limits of a small log; start without -s\n";
    for first in OUTSIDE_SMALL {
        let firsts = [&BEFORE_REFUSED[..], &[first]].concat();
        let good = file(&firsts);
        stopped(b, SMALL, &good, outside);
        b.put(&good);
        let ran = b.run(b"");
        assert_eq!((ran.code, &ran.err[..]), (Some(0), ""), "the full log of {first:?}");
        let more = [0, 4, 0, 4, 0, 0, 0, 1];
        stopped(b, SMALL, &file(&[&firsts[..], &[more]].concat()), outside);
        stopped(b, SMALL, &[&good[..], &[0; SLOT]].concat(), outside);
        let mut spoiled = good.clone();
        spoiled[3 * SLOT + RECORD] ^= 0x10;
        let why = "record 4 is damaged: checksum wrong, answer=2 ";
        stopped(b, SMALL, &spoiled, why);
    }
    /* Outside both limits, and refused for another reason by both. */
    for (first, refusal) in [([0, 3, 0, 8, 0, 0, 0, 1], 2), ([1, 2, 1, 1, 4, 7, 1, 1], 9)] {
        let why = format!("record 4 is damaged: checksum right, {}\n", answer(refusal));
        stopped(b, SMALL, &file(&[&BEFORE_REFUSED[..], &[first]].concat()), &why);
    }
    /* A last slot that was not written to its end was not answered, whatever its record. */
    let good = file(&BEFORE_REFUSED);
    b.put(&[&good[..], &slot(3, &padded(&OUTSIDE_SMALL[0]))[..5]].concat());
    let ran = b.run_with(b.with_limit(SMALL), b"outcome 7\n");
    let said = "record 4 was not written to its end and is dropped\n";
    assert!(ran.err.ends_with(said), "{}", ran.err);
    assert_eq!((ran.out, b.bytes()), ("tx=7 outcome=open\n".to_string(), good));
}

/// More than the host has room for.
fn too_many(b: &Bench) {
    let entries = longest();
    let next = slot(SLOTS, &entries[SLOTS].to_record());
    for tail in [&next[..], &next[..5], &[0; SLOT], b"x", &[1; 5 * SLOT]] {
        let bytes = with_tail(&entries[..SLOTS], tail);
        b.put(&bytes);
        let ran = b.run(b"outcome 0\n");
        if tail == [0; SLOT] || tail.len() == 5 {
            assert!(ran.err.contains("record 1025 was not written to its end and is dropped"));
        } else {
            let why = "no room for record 1025; make SLOTS_MOST in slots.h larger than 1024\n";
            assert!(ran.err.ends_with(why), "{}", ran.err);
            assert!(ran.code == Some(1) && ran.out.is_empty() && b.bytes() == bytes);
        }
    }
}

/// No change of one byte leaves a checksum as it was or makes it 0: all bytes of a record, all
/// changes. In no two places has a record the same checksum.
fn checksums() {
    assert_eq!(crc32(b"123456789"), 0xcbf4_3926);
    for (index, e) in longest().iter().enumerate().step_by(11) {
        let record = e.to_record();
        let sum = checksum(index, &record);
        assert!(sum.iter().filter(|&&byte| byte != 0).count() >= 2);
        for at in 0..RECORD {
            for change in 1..=255 {
                let mut other = record;
                other[at] ^= change;
                assert_ne!(checksum(index, &other), sum);
            }
        }
    }
    for e in longest().iter().step_by(400) {
        let sums: HashSet<_> = (0..SLOTS).map(|index| checksum(index, &e.to_record())).collect();
        assert_eq!(sums.len(), SLOTS);
    }
}

pub fn all(b: &Bench) {
    checksums();
    torn(b);
    cut_and_spoiled(b);
    more_than_the_last(b);
    spoiled(b);
    misplaced(b);
    garbage(b);
    refused(b);
    of_a_full_log(b);
    too_many(b);
    println!("it drops what was not written to its end, and names any other damage");
}
