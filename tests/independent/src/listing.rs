//! The listing program's output.

use crate::frame::NULL_TRANSMISSION;
use crate::walk::{step, Item, State};

/// The limit of its walk.
const LIMIT: usize = 3;
/// Longer inputs are not listed.
pub const MOST_BYTES: usize = 61_440;

pub fn listing(input: &[u8]) -> String {
    if input.len() > MOST_BYTES {
        return "too long\n".to_string();
    }
    let mut lines = "place kind code level\n".to_string();
    let mut state = State::begin(LIMIT).expect("3 is a limit");
    loop {
        let (item, next) = step(input, state);
        lines += &line(&item);
        if let Item::Done(_) = item {
            return lines;
        }
        state = next;
    }
}

fn line(item: &Item) -> String {
    match item {
        Item::Frame(place, reading) => {
            let header = &reading.header;
            format!("{place} frame {} {}\n", header.fct, header.level)
        }
        Item::Lost(place, number) => format!("{place} lost {number} -\n"),
        Item::Idle(place) => format!("{place} idle {NULL_TRANSMISSION} -\n"),
        Item::Done(place) => format!("end {place}\n"),
    }
}
