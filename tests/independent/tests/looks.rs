//! The count of tests against the request's own words, and the worst record known.

use independent::frame::FRAME;
use independent::looks::looks;
use independent::walk::{stands, LIMITS};

/// A header without streams whose sum is the next place's sync word, so that a place stands every eight bytes.
const WORST: [u8; 8] = [0xFF, 0x07, 0x3A, 0xB6, 0xEE, 0x00, 0xE0, 0x01];

#[test]
fn none_below_a_period() {
    for limit in LIMITS {
        assert_eq!(looks(&[], limit), Ok(0));
        assert_eq!(looks(&[0x55; FRAME - 1], limit), Ok(0));
        assert_eq!(looks(&[0x55; FRAME], limit), Ok(1));
    }
}

#[test]
fn limits_outside_are_refused() {
    for limit in [0, 9, 256 + 3, usize::MAX] {
        assert_eq!(looks(&[0; 2 * FRAME], limit), Err(27));
    }
}

#[test]
fn one_for_each_place_where_none_stands() {
    for limit in LIMITS {
        assert_eq!(
            looks(&vec![0x55; 5 * FRAME], limit),
            Ok(4 * FRAME as u64 + 1)
        );
    }
}

#[test]
fn the_worst_record_known() {
    let record = WORST.repeat(5 * FRAME / 8);
    assert!((0..4 * FRAME)
        .step_by(8)
        .all(|place| stands(&record, place)));
    let places = (record.len() - FRAME + 1) as u64;
    let confirming = (record.len() - 2 * FRAME + 1) as u64;
    for limit in LIMITS {
        assert_eq!(looks(&record, limit), Ok(places + confirming.div_ceil(8)));
    }
}
