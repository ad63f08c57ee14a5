//! Fault logs: a record of sixteen bytes for each item of a walk but done, and the sheet of a log.

use crate::frame::{MOST_FCT, NULL_TRANSMISSION};
use crate::walk::Item;

/// Place in eight bytes, kind, code, level, and five bytes that are zero.
pub const RECORD: usize = 16;
const TAIL: usize = 11;
/// The level of an entry that is no frame.
pub const NO_LEVEL: u8 = 0xFF;
/// The kinds of entries.
pub const FRAME: u8 = 0;
pub const LOST: u8 = 1;
pub const IDLE: u8 = 2;
/// The kind that an item says done with; no entry has it.
pub const DONE: u8 = 3;

/// Frames at four levels, lost marks by their number behind them, and idle items.
pub const ROWS: usize = 16;
const FIRST_LOST_ROW: usize = 4;
const IDLE_ROW: usize = 15;
/// Bytes of a sheet: the rows, frames missing as a high and a low part, and the last frame met.
pub const SHEET: usize = MET + 2;
/// Whether a frame was met, and behind it the last one's FCT.
const MET: usize = 8 * (ROWS + 2);
/// What one of the high part of frames missing stands for.
pub const HIGH: u128 = 1_000_000_000;

/// What is kept of an item.
#[derive(Clone, Copy, Debug, PartialEq, Eq)]
pub struct Entry {
    pub place: u64,
    pub kind: u8,
    pub code: u8,
    pub level: u8,
}

impl Entry {
    pub fn of(item: &Item) -> Entry {
        let (place, kind, code, level) = match item {
            Item::Frame(place, reading) => {
                (*place, FRAME, reading.header.fct, reading.header.level)
            }
            Item::Lost(place, number) => (*place, LOST, *number, NO_LEVEL),
            Item::Idle(place) => (*place, IDLE, NULL_TRANSMISSION, NO_LEVEL),
            Item::Done(place) => (*place, DONE, 0, NO_LEVEL),
        };
        Entry {
            place: place as u64,
            kind,
            code,
            level,
        }
    }

    pub fn allowed(&self) -> bool {
        match self.kind {
            FRAME => self.code <= MOST_FCT && self.level <= 3,
            LOST => {
                let refusal = (2..=10).contains(&self.code) && self.code != NULL_TRANSMISSION;
                refusal && self.level == NO_LEVEL
            }
            IDLE => self.code == NULL_TRANSMISSION && self.level == NO_LEVEL,
            _ => false,
        }
    }

    pub fn bytes(&self) -> [u8; RECORD] {
        let mut bytes = [0; RECORD];
        bytes[..8].copy_from_slice(&self.place.to_be_bytes());
        bytes[8..TAIL].copy_from_slice(&[self.kind, self.code, self.level]);
        bytes
    }

    /// The entry in a record of sixteen bytes, if it is allowed and the record's tail is zero.
    fn read(record: &[u8]) -> Option<Entry> {
        let (place, rest) = record.split_first_chunk()?;
        let entry = Entry {
            place: u64::from_be_bytes(*place),
            kind: rest[0],
            code: rest[1],
            level: rest[2],
        };
        let zero = record[TAIL..].iter().all(|&byte| byte == 0);
        (zero && entry.allowed()).then_some(entry)
    }
}

/// 0 if the record is written, else the refusal number, with the record untouched.
pub fn write(entry: &Entry, record: &mut [u8]) -> u8 {
    if record.len() != RECORD {
        37
    } else if !entry.allowed() {
        29
    } else {
        record.copy_from_slice(&entry.bytes());
        0
    }
}

/// A log's refusal, and the number from 0 of the first bad record where there is one.
#[derive(Clone, Copy, Debug, PartialEq, Eq)]
pub enum Bad {
    Length,
    Record(usize),
}

impl Bad {
    pub fn number(self) -> u8 {
        match self {
            Bad::Length => 28,
            Bad::Record(_) => 29,
        }
    }
}

/// The entries of a log.
pub fn read(log: &[u8]) -> Result<Vec<Entry>, Bad> {
    if log.len() % RECORD != 0 {
        return Err(Bad::Length);
    }
    let records = log.chunks(RECORD).enumerate();
    records
        .map(|(n, record)| Entry::read(record).ok_or(Bad::Record(n)))
        .collect()
}

/// One entry of a log, whose other records are not looked at.
pub fn entry(log: &[u8], n: usize) -> Result<Entry, u8> {
    if log.len() % RECORD != 0 {
        return Err(28);
    }
    let record = log.chunks(RECORD).nth(n).ok_or(34)?;
    Entry::read(record).ok_or(29)
}

/// What is counted, over one log or several.
#[derive(Clone, Copy, Debug, Default, PartialEq, Eq)]
pub struct Sheet {
    pub rows: [u64; ROWS],
    pub missing: u128,
    /// FCT of the last frame met.
    pub last: Option<u8>,
}

impl Sheet {
    pub fn add(&mut self, entry: &Entry) {
        let row = match entry.kind {
            FRAME => usize::from(entry.level),
            LOST => FIRST_LOST_ROW + usize::from(entry.code),
            _ => IDLE_ROW,
        };
        self.rows[row] += 1;
        if entry.kind == FRAME {
            self.missing += self.last.map_or(0, |last| missing(last, entry.code));
            self.last = Some(entry.code);
        }
    }

    pub fn bytes(&self) -> Vec<u8> {
        let rows = self.rows.iter().flat_map(|row| row.to_be_bytes());
        let mut bytes: Vec<u8> = rows.collect();
        for part in [self.missing / HIGH, self.missing % HIGH] {
            bytes.extend((part as u64).to_be_bytes());
        }
        bytes.extend([u8::from(self.last.is_some()), self.last.unwrap_or(0)]);
        bytes
    }

    pub fn of(bytes: &[u8]) -> Sheet {
        let numbers = numbers(bytes);
        let mut rows = [0; ROWS];
        rows.copy_from_slice(&numbers[..ROWS]);
        let (high, low) = (u128::from(numbers[ROWS]), u128::from(numbers[ROWS + 1]));
        Sheet {
            rows,
            missing: high * HIGH + low,
            last: (bytes[MET] == 1).then_some(bytes[MET + 1]),
        }
    }
}

/// The rows of a sheet, and the high and the low part of frames missing.
fn numbers(bytes: &[u8]) -> Vec<u64> {
    let number = |part: &[u8]| part.iter().fold(0, |sum, &byte| sum << 8 | u64::from(byte));
    bytes[..MET].chunks(8).map(number).collect()
}

/// Whether so many records can be added to a lent sheet: to each row and to the high part, whichever they count in; the low part and the last frame must be such as a sheet has.
fn goes_on(bytes: &[u8], records: usize) -> bool {
    let numbers = numbers(bytes);
    let (low, totals) = numbers.split_last().expect("a sheet has eighteen numbers");
    let room = |total: &u64| total.checked_add(records as u64).is_some();
    let last = match bytes[MET..] {
        [0, fct] => fct == 0,
        [met, fct] => met == 1 && fct <= MOST_FCT,
        _ => false,
    };
    totals.iter().all(room) && u128::from(*low) < HIGH && last
}

/// Frames missing between two that follow each other: the difference less one, modulo 250.
fn missing(before: u8, next: u8) -> u128 {
    (250 + u128::from(next) - u128::from(before) + 249) % 250
}

/// Adds a log to the lent sheet: 0, or the refusal number, with the sheet untouched.
pub fn sheet(log: &[u8], lent: &mut [u8]) -> u8 {
    if lent.len() != SHEET {
        return 1;
    }
    let entries = match read(log) {
        Ok(entries) => entries,
        Err(bad) => return bad.number(),
    };
    if !goes_on(lent, entries.len()) {
        return 12;
    }
    let mut sheet = Sheet::of(lent);
    for entry in &entries {
        sheet.add(entry);
    }
    lent.copy_from_slice(&sheet.bytes());
    0
}
