//! The library's entry points, as include/release_log.h declares them.

use crate::plain_log::Numbers;

extern "C" {
    fn release_log_add(
        stores: u32,
        records: *mut u8,
        records_len: usize,
        count: usize,
        kind: u32,
        process: u32,
        by: u32,
        store: u32,
        tx: u32,
        list: u32,
        say: u32,
        turn: u32,
        update: u64,
    ) -> u32;
    fn release_log_outcome(
        stores: u32,
        records: *const u8,
        records_len: usize,
        count: usize,
        tx: u32,
        out: *mut u8,
        out_len: usize,
    ) -> u32;
    fn release_log_involvement(
        stores: u32,
        records: *const u8,
        records_len: usize,
        count: usize,
        tx: u32,
        store: u32,
        out: *mut u8,
        out_len: usize,
    ) -> u32;
    fn release_log_replay(
        stores: u32,
        records: *const u8,
        records_len: usize,
        count: usize,
        store: u32,
        out: *mut u8,
        out_len: usize,
    ) -> u32;
}

pub fn add(stores: u32, records: &mut [u8], count: usize, n: &Numbers) -> u32 {
    let [kind, process, by, store, tx, list, say, turn] = n.first;
    let (p, len, update) = (records.as_mut_ptr(), records.len(), n.update);
    unsafe {
        release_log_add(
            stores, p, len, count, kind, process, by, store, tx, list, say, turn, update,
        )
    }
}

pub fn outcome(stores: u32, records: &[u8], count: usize, tx: u32, out: &mut [u8]) -> u32 {
    let (p, len) = (records.as_ptr(), records.len());
    unsafe { release_log_outcome(stores, p, len, count, tx, out.as_mut_ptr(), out.len()) }
}

pub fn involvement(
    stores: u32,
    records: &[u8],
    count: usize,
    tx: u32,
    store: u32,
    out: &mut [u8],
) -> u32 {
    let (p, len) = (records.as_ptr(), records.len());
    unsafe {
        release_log_involvement(stores, p, len, count, tx, store, out.as_mut_ptr(), out.len())
    }
}

pub fn replay(stores: u32, records: &[u8], count: usize, store: u32, out: &mut [u8]) -> u32 {
    let (p, len) = (records.as_ptr(), records.len());
    unsafe { release_log_replay(stores, p, len, count, store, out.as_mut_ptr(), out.len()) }
}
