//! The proved exports of `sheets`, called as C calls them, and the bytes they give.

use crate::log::{Bad, Entry};

pub const JUDGED: usize = 9;
pub const ENTRY: usize = 11;

#[link(name = "logs", kind = "static")]
#[link(name = "sheets", kind = "static")]
extern "C" {
    fn spindlewren_log_write(
        place: usize,
        kind: u8,
        code: u8,
        level: u8,
        record: *mut u8,
        record_len: usize,
    ) -> u8;
    fn spindlewren_log_judged(
        log: *const u8,
        log_len: usize,
        judged: *mut u8,
        judged_len: usize,
    ) -> u8;
    fn spindlewren_log_entry(
        log: *const u8,
        log_len: usize,
        i: usize,
        entry: *mut u8,
        entry_len: usize,
    ) -> u8;
    fn spindlewren_sheet(log: *const u8, log_len: usize, sheet: *mut u8, sheet_len: usize) -> u8;
}

// SAFETY, for each call below: pointer and length are of one slice, and a mutable slice overlaps no other.

pub fn write(entry: &Entry, record: &mut [u8]) -> u8 {
    unsafe {
        spindlewren_log_write(
            entry.place as usize,
            entry.kind,
            entry.code,
            entry.level,
            record.as_mut_ptr(),
            record.len(),
        )
    }
}

pub fn judged(log: &[u8], judged: &mut [u8]) -> u8 {
    unsafe { spindlewren_log_judged(log.as_ptr(), log.len(), judged.as_mut_ptr(), judged.len()) }
}

pub fn entry(log: &[u8], i: usize, entry: &mut [u8]) -> u8 {
    unsafe { spindlewren_log_entry(log.as_ptr(), log.len(), i, entry.as_mut_ptr(), entry.len()) }
}

pub fn sheet(log: &[u8], sheet: &mut [u8]) -> u8 {
    unsafe { spindlewren_sheet(log.as_ptr(), log.len(), sheet.as_mut_ptr(), sheet.len()) }
}

/// A log's number, and the number of the first bad record.
pub fn judged_bytes(bad: Option<Bad>) -> Vec<u8> {
    let record = match bad {
        Some(Bad::Record(n)) => n as u64,
        _ => 0,
    };
    let number = bad.map_or(0, Bad::number);
    [&[number][..], &record.to_be_bytes()].concat()
}

/// Place, kind, code and level.
pub fn entry_bytes(entry: &Entry) -> Vec<u8> {
    entry.bytes()[..ENTRY].to_vec()
}
