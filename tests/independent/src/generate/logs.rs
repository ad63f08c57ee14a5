//! Fault logs, good ones and bad, and sheets to which they are added.

use super::Random;
use crate::frame::{FRAME as PERIOD, NULL_TRANSMISSION};
use crate::log::{Entry, Sheet, DONE, FRAME, HIGH, IDLE, LOST, NO_LEVEL, RECORD, ROWS, SHEET};

/// What is wrong with a log. Faults are made in this order.
#[derive(Clone, Copy, Debug, PartialEq, Eq, PartialOrd, Ord)]
pub enum Fault {
    Kind,
    Code,
    Level,
    Tail,
    Byte,
    Length,
}
use Fault::*;

pub const FAULTS: [Fault; 6] = [Kind, Code, Level, Tail, Byte, Length];

pub struct Log {
    pub faults: Vec<Fault>,
    pub bytes: Vec<u8>,
}

pub fn log_case(random: &mut Random) -> Log {
    let faults = random.faults(&FAULTS);
    let many = random.within(20, 200);
    let few = random.within(1, 12);
    let records = random.pick(&[0, 1, 2, few, few, many]);
    let mut bytes = night(records, random);
    for &fault in &faults {
        spoil(&mut bytes, fault, random);
    }
    Log { faults, bytes }
}

/// Entries one behind the other, the frames mostly in turn.
fn night(records: usize, random: &mut Random) -> Vec<u8> {
    let mut place = random.below(3 * PERIOD) as u64;
    let mut fct = random.below(250) as u8;
    let mut bytes = Vec::new();
    let chances = random.pick(&[1, 4, 16]);
    for _ in 0..records {
        let entry = Entry {
            place,
            ..next(fct, random.one_in(chances), random)
        };
        bytes.extend(entry.bytes());
        if entry.kind == FRAME {
            fct = (entry.code + 1) % 250;
        }
        place = place.wrapping_add(PERIOD as u64);
        if random.one_in(32) {
            place = random.pick(&[0, 1, u64::MAX, u64::MAX - 1, 1 << 32, place + 1]);
        }
    }
    bytes
}

/// The frame that is due, or an entry of any kind.
fn next(due: u8, any: bool, random: &mut Random) -> Entry {
    if any {
        return allowed(due, random);
    }
    Entry {
        place: 0,
        kind: FRAME,
        code: due,
        level: random.below(4) as u8,
    }
}

/// An entry of any kind. A frame may be the one before again, one too early or too late, or any.
fn allowed(due: u8, random: &mut Random) -> Entry {
    let turns = random.pick(&[0, 1, 2, 249, 248]) as u16;
    let near = ((u16::from(due) + turns) % 250) as u8;
    let far = random.below(250) as u8;
    let (kind, code, level) = match random.below(4) {
        0 => (LOST, random.pick(&[2, 3, 5, 6, 7, 8, 9, 10]), NO_LEVEL),
        1 => (IDLE, NULL_TRANSMISSION, NO_LEVEL),
        _ => {
            let code = random.pick(&[near, near, far, 0, 249]);
            (FRAME, code, random.below(4) as u8)
        }
    };
    Entry {
        place: 0,
        kind,
        code,
        level,
    }
}

/// An entry that is allowed or not, more often at the limits of what is.
pub fn any_entry(random: &mut Random) -> Entry {
    let byte = random.byte();
    let place = random.number();
    Entry {
        place: random.pick(&[0, 1, 6144, u64::MAX, place, place]),
        kind: random.pick(&[FRAME, FRAME, LOST, LOST, IDLE, DONE, 4, 255, byte]),
        code: random.pick(&[0, 1, 2, 3, 4, 4, 5, 9, 10, 11, 249, 250, 255, byte]),
        level: random.pick(&[0, 1, 2, 3, 3, 4, 254, NO_LEVEL, NO_LEVEL, NO_LEVEL, byte]),
    }
}

/// Bytes of a record that may be none of those allowed, for a place in it.
pub const BYTES: [u8; 14] = [0, 1, 2, 3, 4, 5, 9, 10, 11, 128, 249, 250, 254, 255];

fn spoil(bytes: &mut Vec<u8>, fault: Fault, random: &mut Random) {
    let tail = random.within(11, RECORD - 1);
    let any = random.below(RECORD);
    let at = match fault {
        Kind => 8,
        Code => 9,
        Level => 10,
        Tail => tail,
        Byte => any,
        Length => {
            let length = bytes.len() + random.within(1, 31);
            let less = bytes.len().saturating_sub(random.within(1, 15));
            bytes.resize(random.pick(&[length, less]), 0);
            return;
        }
    };
    let record = random.below((bytes.len() / RECORD).max(1));
    let (any, limit) = (random.byte(), random.pick(&BYTES));
    let byte = random.pick(&[any, limit]);
    if let Some(place) = bytes.get_mut(record * RECORD + at) {
        *place = byte;
    }
}

/// The bytes of a sheet that a log can be added to: that of nothing, or with totals of any size.
pub fn lent_sheet(random: &mut Random) -> Vec<u8> {
    if random.one_in(4) {
        return Sheet::default().bytes();
    }
    let mut rows = [0; ROWS];
    for row in &mut rows {
        let any = random.number() >> random.within(1, 63);
        *row = random.pick(&[0, 0xFF, 0xFFFF_FFFF, any]);
    }
    let high = u128::from(random.number() >> random.within(1, 63));
    let any = random.below(HIGH as usize) as u128;
    let low = random.pick(&[0, HIGH - 1, HIGH - 2, HIGH - 249, any]);
    let fct = random.below(250) as u8;
    let sheet = Sheet {
        rows,
        missing: random.pick(&[0, high]) * HIGH + low,
        last: random.pick(&[None, Some(0), Some(249), Some(fct)]),
    };
    sheet.bytes()
}

/// Mostly a sheet that cannot be gone on with: a total with little room, a low part of frames missing, a mark or an FCT outside its range, or an FCT of no frame.
pub fn spoiled_sheet(random: &mut Random) -> Vec<u8> {
    let mut bytes = lent_sheet(random);
    match random.below(5) {
        4 => {
            let total = 8 * random.below(ROWS + 1);
            let any = random.below(250) as u64;
            let room = random.pick(&[0, 1, 2, 3, any]);
            bytes[total..total + 8].copy_from_slice(&(u64::MAX - room).to_be_bytes());
        }
        0 => {
            let low = random.pick(&[HIGH as u64, HIGH as u64 - 1, 1 << 32, u64::MAX]);
            bytes[SHEET - 10..SHEET - 2].copy_from_slice(&low.to_be_bytes());
        }
        1 => bytes[SHEET - 2] = random.pick(&[0, 1, 2, 128, 255]),
        2 => bytes[SHEET - 1] = random.pick(&[249, 250, 251, 255]),
        _ => {
            let fct = random.below(250) as u8;
            bytes[SHEET - 2..].copy_from_slice(&random.pick(&[[0, 0], [0, 1], [0, fct]]));
        }
    }
    bytes
}
