//! Leased lines and rows: frames, variants and lengths, mostly right, and what a line does to bytes.

use super::frames::{frame_case, Draft};
use super::Random;
use crate::line::{place, Parts, BLOCKS, ROWS, SLOTS, VARIANTS};
use crate::reed_solomon::{product, roots, with_roots, CODEWORD};

/// Numbers of no variant, some of which are near one or one after narrowing.
#[rustfmt::skip]
const NO_VARIANT: [usize; 12] = [
    0, 1, 5, 14, 235, 226, 5375, 5377, 5591, 5593, 1 << 32, usize::MAX,
];

/// The length, or now and then another.
pub fn length(random: &mut Random, right: usize) -> usize {
    if random.one_in(40) {
        let any = random.below(2 * right + 2);
        return random.pick(&[0, right.saturating_sub(1), right + 1, any]);
    }
    right
}

/// The number of check bytes, or now and then another, that of the other variant too.
pub fn check_length(random: &mut Random, right: usize) -> usize {
    let any = length(random, right);
    if random.one_in(40) {
        random.pick(&VARIANTS).check
    } else {
        any
    }
}

/// A variant's number, or now and then another, and its check bytes.
pub fn variant(random: &mut Random) -> (usize, usize) {
    let v = random.pick(&VARIANTS);
    let number = if random.one_in(40) {
        random.pick(&NO_VARIANT)
    } else {
        v.information
    };
    (number, ROWS * v.check)
}

pub fn parts(random: &mut Random, information: usize, check: usize) -> Parts {
    let mut part = |right| {
        let n = length(random, right);
        random.bytes(n)
    };
    Parts {
        information: part(information),
        management: part(BLOCKS),
        supervision: part(BLOCKS),
        synchronising: part(SLOTS),
        signalling: part(SLOTS),
        check: part(check),
    }
}

/// A frame of any sort, now and then one that a variant just carries or just does not.
pub fn any_frame(random: &mut Random) -> Vec<u8> {
    if !random.one_in(8) {
        return frame_case(random).1;
    }
    let most = random.pick(&VARIANTS).information / 4 - 3;
    let mut draft = Draft::valid(random);
    draft.reach(random.within(most - 1, most + 1), random);
    draft.frame(random)
}

/// What came back, or a frame's logical bytes in its place, with fill behind them.
pub fn any_information(random: &mut Random, came: &[u8]) -> Vec<u8> {
    let mut information = came.to_vec();
    if random.one_in(2) {
        let other = any_frame(random);
        let logical = other.get(4..).unwrap_or(&[]);
        let n = information.len().min(logical.len());
        information[..n].copy_from_slice(&logical[..n]);
    }
    information
}

pub fn change(random: &mut Random, bytes: &mut [u8], times: usize) {
    for _ in 0..times {
        if !bytes.is_empty() {
            let at = random.below(bytes.len());
            bytes[at] = random.byte();
        }
    }
}

/// A row of an output array, whichever variant's.
pub fn spoil_row(random: &mut Random, output: &mut [u8]) {
    let i = random.below(ROWS);
    let mut row: Vec<u8> = (0..CODEWORD).map(|j| output[place(i, j)]).collect();
    let check = random.pick(&VARIANTS).check;
    spoil_one_root(random, &mut row, check);
    for (j, byte) in row.into_iter().enumerate() {
        output[place(i, j)] = byte;
    }
}

/// Adds what has every root but one.
pub fn spoil_one_root(random: &mut Random, row: &mut [u8], check: usize) {
    let left_out = random.below(check);
    let others = roots(check).enumerate().filter(|&(n, _)| n != left_out);
    let added = with_roots(others.map(|(_, root)| root));
    let factor = random.within(1, 255) as u8;
    let at = random.below(row.len() - added.len() + 1);
    for (byte, coefficient) in row[at..].iter_mut().zip(added) {
        *byte ^= product(factor, coefficient);
    }
}
