//! The profile of the final stage: SCIDs, and sub-channels in the capacity units of a DAB frame (clause 5.4.1.3 and EN 300 401).

use crate::frame::{read, Stream};

/// Capacity units of a DAB frame, numbered from 0.
pub const UNITS: usize = 864;
pub const EQUAL_SCIDS: u8 = 30;
pub const NO_SIZE: u8 = 31;
pub const BEYOND: u8 = 32;
pub const OVERLAP: u8 = 33;

/// Unequal protection: by bit rate in kbit/s, the sizes at levels 5, 4, 3, 2 and 1.
pub const UNEQUAL: [(usize, [Option<usize>; 5]); 14] = [
    (32, sizes([16, 21, 24, 29, 35])),
    (48, sizes([24, 29, 35, 42, 52])),
    (56, sizes([29, 35, 42, 52, 0])),
    (64, sizes([32, 42, 48, 58, 70])),
    (80, sizes([40, 52, 58, 70, 84])),
    (96, sizes([48, 58, 70, 84, 104])),
    (112, sizes([58, 70, 84, 104, 0])),
    (128, sizes([64, 84, 96, 116, 140])),
    (160, sizes([80, 104, 116, 140, 168])),
    (192, sizes([96, 116, 140, 168, 208])),
    (224, sizes([116, 140, 168, 208, 232])),
    (256, sizes([128, 168, 192, 232, 280])),
    (320, sizes([160, 208, 0, 280, 0])),
    (384, sizes([192, 0, 280, 0, 416])),
];

/// Where there is no size, 0 is given.
const fn sizes(given: [usize; 5]) -> [Option<usize>; 5] {
    let mut sizes = [None; 5];
    let mut at = 0;
    while at < 5 {
        if given[at] > 0 {
            sizes[at] = Some(given[at]);
        }
        at += 1;
    }
    sizes
}

/// Equal protection: the sizes at levels 1 to 4 of 8 kbit/s with option A, and of 32 kbit/s with option B.
const EQUAL_A: [usize; 4] = [12, 8, 6, 4];
const EQUAL_B: [usize; 4] = [27, 21, 18, 15];

/// Capacity units of a sub-channel with this protection and length, if there is such a one.
pub fn size(tpl: u8, stl: u16) -> Option<usize> {
    let stl = usize::from(stl);
    if tpl & 0b10_0000 == 0 {
        // The reserved bit is not judged; the other table of the switch is reserved.
        let (switch, index) = (tpl & 0b00_1000, usize::from(tpl & 0b111));
        let (_, sizes) = UNEQUAL.iter().find(|(rate, _)| 3 * rate == 8 * stl)?;
        let size = sizes.iter().rev().nth(index)?;
        size.filter(|_| switch == 0)
    } else {
        let level = usize::from(tpl & 0b11);
        let (size, words) = match tpl >> 2 & 0b111 {
            0 => (EQUAL_A[level], 3),
            1 => (EQUAL_B[level], 12),
            _ => return None,
        };
        (stl % words == 0).then_some(stl / words * size)
    }
}

/// The profile's number, and the places in the table of the streams that it is about: 0 both times where it is 0, and the same twice where it is about one.
#[derive(Clone, Copy, Debug, PartialEq, Eq)]
pub struct Collision {
    pub number: u8,
    pub first: usize,
    pub second: usize,
}

/// Reading's refusal, or what the profile says of the frame.
pub fn profile(frame: &[u8]) -> Result<Collision, u8> {
    let reading = read(frame)?;
    let streams = &reading.table[..usize::from(reading.header.nst)];
    Ok(collision(streams).unwrap_or(Collision {
        number: 0,
        first: 0,
        second: 0,
    }))
}

/// The first rule that is broken, each judged over all streams before the next.
pub fn collision(streams: &[Stream]) -> Option<Collision> {
    // Streams of no length take no units.
    let taking = |at: &usize| streams[*at].stl > 0;
    let sized = |at: usize| size(streams[at].tpl, streams[at].stl);
    let units = |at: usize| {
        let start = usize::from(streams[at].sad);
        start..start + sized(at).unwrap_or(0)
    };
    let all = || 0..streams.len();
    let pair = |number: u8, breaks: &dyn Fn(usize, usize) -> bool| {
        let mut pairs =
            all().flat_map(|first| (first + 1..streams.len()).map(move |second| (first, second)));
        let (first, second) = pairs.find(|&(first, second)| breaks(first, second))?;
        Some(Collision {
            number,
            first,
            second,
        })
    };
    let one = |number: u8, breaks: &dyn Fn(usize) -> bool| {
        let first = all().filter(taking).find(|&at| breaks(at))?;
        Some(Collision {
            number,
            first,
            second: first,
        })
    };
    pair(EQUAL_SCIDS, &|first, second| {
        streams[first].scid == streams[second].scid
    })
    .or_else(|| one(NO_SIZE, &|at| sized(at).is_none()))
    .or_else(|| one(BEYOND, &|at| units(at).end > UNITS))
    .or_else(|| {
        pair(OVERLAP, &|first, second| {
            let both = taking(&first) && taking(&second);
            both && units(first).any(|unit| units(second).contains(&unit))
        })
    })
}
