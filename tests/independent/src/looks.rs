//! How many times a walk puts the acceptance test to a place.

use crate::frame::{fsync1, judge, FRAME, NULL_TRANSMISSION};
use crate::walk::{LIMITS, LIMIT_OUTSIDE};

/// Counted over the whole walk. A place whose 6,144 bytes do not exist is not tested, nor a confirming place if the first does not stand; a place tested as a confirmation and later in its own right counts twice.
pub fn looks(record: &[u8], limit: usize) -> Result<u64, u8> {
    if !LIMITS.contains(&limit) {
        return Err(LIMIT_OUTSIDE);
    }
    let mut tests = 0;
    let mut test = |place: usize| {
        let frame = record.get(place..)?.get(..FRAME)?;
        tests += 1;
        Some(judge(frame))
    };
    let other_sync = |place: usize| fsync1(&record[place..]) != fsync1(&record[place + FRAME..]);
    let mut place = 0;
    // How many more misses the lock bears; none are left while hunting.
    let mut left = 0;
    while let Some(number) = test(place) {
        left = if left > 0 {
            match number {
                0 | NULL_TRANSMISSION => limit,
                _ => left - 1,
            }
        } else if number == 0 && test(place + FRAME) == Some(0) && other_sync(place) {
            limit
        } else {
            0
        };
        place += if left > 0 { FRAME } else { 1 };
    }
    Ok(tests)
}
