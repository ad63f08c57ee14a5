//! Leased lines: the G.704 layer by the formulas of clause 8.4, cell by cell.

use crate::frame::{judge, FRAME, LOGICAL, STATUS, SYNC};
use crate::reed_solomon::{check_bytes, is_clean, CODEWORD};

pub const OUTPUT: usize = 6144;
pub const ROWS: usize = 24;
/// Management bytes, and supervision bytes: one for each block of each superblock.
pub const BLOCKS: usize = 24;
/// Synchronising bytes, and signalling bytes: one for each G.704 frame.
pub const SLOTS: usize = 192;

/// One of the two variants.
#[derive(Clone, Copy, Debug)]
pub struct Variant {
    /// Information bytes, and those of one superblock.
    pub information: usize,
    superblock: usize,
    /// Columns of a row before its check bytes.
    pub width: usize,
    pub check: usize,
}

pub const VARIANTS: [Variant; 2] = [
    Variant {
        information: 5592,
        superblock: 1864,
        width: 235,
        check: 5,
    },
    Variant {
        information: 5376,
        superblock: 1792,
        width: 226,
        check: 14,
    },
];

/// What is lent for the way out, and what comes back.
#[derive(Clone, Debug, PartialEq, Eq)]
pub struct Parts {
    pub information: Vec<u8>,
    pub management: Vec<u8>,
    pub supervision: Vec<u8>,
    pub synchronising: Vec<u8>,
    pub signalling: Vec<u8>,
    pub check: Vec<u8>,
}

/// What an element of the coding array is, with its number among its like.
#[derive(Clone, Copy, Debug, PartialEq, Eq)]
pub enum Element {
    Management(usize),
    Supervision(usize),
    Information(usize),
    Check(usize),
}

type Array = [[u8; CODEWORD]; ROWS];

impl Variant {
    fn of(number: usize) -> Result<Variant, u8> {
        VARIANTS
            .into_iter()
            .find(|variant| variant.information == number)
            .ok_or(12)
    }

    /// C(i, j) by the cases of 8.4.2.1 and 8.4.3.1.
    pub fn element(self, i: usize, j: usize) -> Element {
        if j >= self.width {
            return Element::Check(i * self.check + j - self.width);
        }
        let (k, l) = (j / 30, i / 8);
        match (i % 8, j % 30) {
            (0, 0) => Element::Management(8 * l + k),
            (1, 0) => Element::Supervision(8 * l + k),
            (0 | 1, _) => Element::Information(self.r(i, j)),
            _ => Element::Information(self.s(i, j)),
        }
    }

    /// 227 or 218 information bytes are in a row with eight others.
    fn r(self, i: usize, j: usize) -> usize {
        (i / 8) * self.superblock + (i % 2) * (self.width - 8) - j / 30 + (j - 1)
    }

    fn s(self, i: usize, j: usize) -> usize {
        (i / 8) * self.superblock + (i % 8) * self.width + j - 16
    }
}

/// The place in the output array of C(i, j): its index p among the interleaved, then q.
pub fn place(i: usize, j: usize) -> usize {
    let p = 1920 * (i / 8) + 8 * j + i % 8;
    p + p / 15 + 1
}

/// The rows and columns of the coding array.
fn cells() -> impl Iterator<Item = (usize, usize)> {
    (0..ROWS).flat_map(|i| (0..CODEWORD).map(move |j| (i, j)))
}

/// The output array of a network frame; the check bytes are those of its rows, not those lent.
pub fn out(frame: &[u8], number: usize, lent: &Parts, output: usize) -> Result<Vec<u8>, u8> {
    let variant = Variant::of(number)?;
    if besides(lent) != [BLOCKS, BLOCKS, SLOTS, SLOTS] || output != OUTPUT {
        return Err(1);
    }
    match judge(frame) {
        0 => {}
        refusal => return Err(refusal),
    }
    let logical = &frame[LOGICAL..LOGICAL + logical_length(&frame[LOGICAL..])];
    if logical.len() > variant.information {
        return Err(23);
    }
    let mut information = logical.to_vec();
    information.resize(variant.information, 0xFF);
    let array = coded(variant, &information, lent);
    Ok(output_array(&array, lent))
}

/// (FL + 3) x 4, FL as it stands in bytes 2 and 3 of the logical frame.
fn logical_length(logical: &[u8]) -> usize {
    let fl = usize::from(logical[2] & 7) * 256 + usize::from(logical[3]);
    (fl + 3) * 4
}

fn besides(parts: &Parts) -> [usize; 4] {
    [
        parts.management.len(),
        parts.supervision.len(),
        parts.synchronising.len(),
        parts.signalling.len(),
    ]
}

/// The coding array, the check bytes of each row behind the bytes before them.
fn coded(variant: Variant, information: &[u8], lent: &Parts) -> Array {
    let mut array = [[0; CODEWORD]; ROWS];
    for (i, j) in cells() {
        match variant.element(i, j) {
            Element::Management(n) => array[i][j] = lent.management[n],
            Element::Supervision(n) => array[i][j] = lent.supervision[n],
            Element::Information(n) => array[i][j] = information[n],
            Element::Check(_) => {}
        }
    }
    for row in &mut array {
        let (before, check) = row.split_at_mut(variant.width);
        check.copy_from_slice(&check_bytes(before, variant.check).expect("a row's lengths"));
    }
    array
}

fn output_array(array: &Array, lent: &Parts) -> Vec<u8> {
    let mut output = vec![0; OUTPUT];
    for (f, slots) in output.chunks_exact_mut(32).enumerate() {
        slots[0] = lent.synchronising[f];
        slots[16] = lent.signalling[f];
    }
    for (i, row) in array.iter().enumerate() {
        for (j, &byte) in row.iter().enumerate() {
            output[place(i, j)] = byte;
        }
    }
    output
}

/// The parts of an output array, none of its bytes judged; of those lent the lengths are.
pub fn back(output: &[u8], number: usize, lent: &Parts) -> Result<Parts, u8> {
    let variant = Variant::of(number)?;
    let lengths = [lent.information.len(), lent.check.len(), output.len()];
    if besides(lent) != [BLOCKS, BLOCKS, SLOTS, SLOTS]
        || lengths != [variant.information, ROWS * variant.check, OUTPUT]
    {
        return Err(1);
    }
    let mut parts = lent.clone();
    for (f, slots) in output.chunks_exact(32).enumerate() {
        parts.synchronising[f] = slots[0];
        parts.signalling[f] = slots[16];
    }
    for (i, j) in cells() {
        let (part, n) = match variant.element(i, j) {
            Element::Management(n) => (&mut parts.management, n),
            Element::Supervision(n) => (&mut parts.supervision, n),
            Element::Information(n) => (&mut parts.information, n),
            Element::Check(n) => (&mut parts.check, n),
        };
        part[n] = output[place(i, j)];
    }
    Ok(parts)
}

/// Which rows of an output array are clean, 1 or 0 for each.
pub fn rows(output: &[u8], number: usize, clean: usize) -> Result<Vec<u8>, u8> {
    let variant = Variant::of(number)?;
    if (output.len(), clean) != (OUTPUT, ROWS) {
        return Err(1);
    }
    (0..ROWS)
        .map(|i| {
            let row: Vec<u8> = (0..CODEWORD).map(|j| output[place(i, j)]).collect();
            is_clean(&row, variant.check).map(u8::from)
        })
        .collect()
}

/// The network frame of information that came back.
pub fn frame(
    information: &[u8],
    number: usize,
    choice: u8,
    level: u8,
    length: usize,
) -> Result<Vec<u8>, u8> {
    let variant = Variant::of(number)?;
    if (information.len(), length) != (variant.information, FRAME) {
        return Err(1);
    }
    let status = *STATUS.get(usize::from(level)).ok_or(12)?;
    let logical = information.get(..logical_length(information)).ok_or(23)?;
    let mut frame = [&[status], &SYNC[usize::from(choice != 0)][..], logical].concat();
    frame.resize(FRAME, 0x55);
    match judge(&frame) {
        0 => Ok(frame),
        refusal => Err(refusal),
    }
}
