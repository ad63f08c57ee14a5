//! Why a place of a record was not aired: how it fared in the walk from the record's beginning.

use crate::frame::{fsync1, judge, FRAME, NULL_TRANSMISSION};
use crate::walk::{LIMITS, LIMIT_OUTSIDE};

/// The refusal number of a place beyond the record's length less 6,144.
pub const PLACE_OUTSIDE: u8 = 34;

#[derive(Clone, Copy, Debug, PartialEq, Eq)]
pub enum Reason {
    /// As a frame or an idle item.
    HandedOut,
    /// In lock, with the refusal number.
    Lost(u8),
    /// Hunted over, with the refusal number.
    Refused(u8),
    /// Hunted over: it stood, but the place a period later does not.
    NotStanding,
    /// Hunted over: it stood, and so does the place a period later, with the same sync word.
    SameSync,
    /// Never come to, with the place of the item before it.
    SteppedOver(usize),
}
use Reason::*;

/// The reason of every place from 0 to the record's length less 6,144.
pub fn reasons(record: &[u8], limit: usize) -> Result<Vec<Reason>, u8> {
    if !LIMITS.contains(&limit) {
        return Err(LIMIT_OUTSIDE);
    }
    let places = (record.len() + 1).saturating_sub(FRAME);
    let mut reasons = Vec::with_capacity(places);
    // Misses in a row while in lock.
    let mut lock = None;
    while let Some(frame) = period(record, reasons.len()) {
        let place = reasons.len();
        let reason = match lock {
            None => hunted(frame, period(record, place + FRAME)),
            Some(_) => met_in_lock(frame),
        };
        reasons.push(reason);
        let misses = lock.unwrap_or(0) + 1;
        lock = match reason {
            HandedOut => Some(0),
            Lost(_) if misses < limit => Some(misses),
            _ => None,
        };
        if lock.is_some() {
            reasons.resize(places.min(place + FRAME), SteppedOver(place));
        }
    }
    Ok(reasons)
}

/// The reason of one place.
pub fn why(record: &[u8], limit: usize, place: usize) -> Result<Reason, u8> {
    let reasons = reasons(record, limit)?;
    reasons.get(place).copied().ok_or(PLACE_OUTSIDE)
}

fn met_in_lock(frame: &[u8]) -> Reason {
    match judge(frame) {
        0 | NULL_TRANSMISSION => HandedOut,
        number => Lost(number),
    }
}

/// That the later place does not stand is named first, and also where its 6,144 bytes do not exist.
fn hunted(frame: &[u8], later: Option<&[u8]>) -> Reason {
    match (judge(frame), later) {
        (0, Some(later)) if judge(later) == 0 => {
            if fsync1(frame) == fsync1(later) {
                SameSync
            } else {
                HandedOut
            }
        }
        (0, _) => NotStanding,
        (number, _) => Refused(number),
    }
}

fn period(record: &[u8], place: usize) -> Option<&[u8]> {
    record.get(place..)?.get(..FRAME)
}
