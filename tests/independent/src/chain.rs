//! A frame sent down a chain of relays, and what the customer says of it (T-12).

use crate::frame::{fic_part, main_stream_part, read, stream_part, Reading, MOST_STREAMS, STATUS};
use crate::writing::PADDING;

/// One relay of a chain.
pub struct Hop {
    pub arrived: Vec<u8>,
    /// The frame that it wrote.
    pub left: Vec<u8>,
    /// Whether the main-stream sum that arrived is not that of the main stream that arrived.
    pub wrong_sum: bool,
}

impl Hop {
    pub fn new(arrived: Vec<u8>, left: Vec<u8>) -> Hop {
        let wrong_sum = read(&arrived).is_ok_and(|reading| !sums_equal(&reading));
        Hop {
            arrived,
            left,
            wrong_sum,
        }
    }
}

fn sums_equal(reading: &Reading) -> bool {
    reading.header.sent == reading.header.worked
}

/// The level of a status byte, 3 for a byte that is none: such a frame is refused anyway.
pub fn level_of(status: u8) -> u8 {
    let place = STATUS.iter().position(|&byte| byte == status);
    place.unwrap_or(3) as u8
}

/// The level at the end: the worst of the first frame's own and 2 for each wrong sum met.
pub fn level_at_end(first: &[u8], hops: &[Hop]) -> u8 {
    let met = hops.iter().map(|hop| if hop.wrong_sum { 2 } else { 0 });
    met.fold(level_of(first[0]), u8::max)
}

/// The customer's sentences about a chain: the first that does not hold.
pub fn sentences(first: &[u8], hops: &[Hop]) -> Result<(), &'static str> {
    for (number, hop) in hops.iter().enumerate() {
        let after = read(&hop.left).map_err(|_| "what leaves a relay is accepted")?;
        let level = after.header.level;
        // A relay writes the level that its reading handed on.
        if level != level_of(hop.left[0]) || level != level_at_end(first, &hops[..=number]) {
            return Err("the level is the worst of the first and 2 for each wrong sum met");
        }
        if level < level_of(first[0]) {
            return Err("the level is no better than the first");
        }
        if hop.wrong_sum && !(sums_equal(&after) && level >= 2) {
            return Err("a fresh sum does not wash the level clean");
        }
    }
    match hops.last() {
        Some(last) if undamaged(first, hops) => arrives(first, &last.left),
        _ => Ok(()),
    }
}

/// Whether each relay got what was sent to it.
pub fn undamaged(first: &[u8], hops: &[Hop]) -> bool {
    let sent = std::iter::once(first).chain(hops.iter().map(|hop| &hop.left[..]));
    sent.zip(hops).all(|(sent, hop)| sent == hop.arrived)
}

/// Every stream and the FIC byte for byte, and a frame with a right sum and padding of 55 as a whole.
fn arrives(first: &[u8], last: &[u8]) -> Result<(), &'static str> {
    let fic = |frame: &[u8]| fic_part(frame).map(|part| frame[part].to_vec());
    if fic(first) != fic(last) {
        return Err("with no damage the FIC arrives byte for byte");
    }
    let stream = |frame: &[u8], i| stream_part(frame, i).map(|part| frame[part].to_vec());
    // The one at MOST_STREAMS is not there: both refuse it.
    if (0..=MOST_STREAMS).any(|i| stream(first, i) != stream(last, i)) {
        return Err("with no damage every stream arrives byte for byte");
    }
    if clean(first) && first != last {
        return Err("with no damage a clean frame arrives whole");
    }
    Ok(())
}

fn clean(frame: &[u8]) -> bool {
    let end = main_stream_part(frame).unwrap_or_default().end;
    read(frame).is_ok_and(|reading| sums_equal(&reading))
        && frame[end + 8..].iter().all(|&byte| byte == PADDING)
}
