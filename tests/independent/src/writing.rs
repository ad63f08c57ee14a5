//! Writing one network frame from its fields.

use crate::frame::{
    ficl, formula, Stream, Table, Timestamp, FRAME, LOGICAL, MOST_FCT, MOST_FL, MOST_STL,
    MOST_STREAMS, STATUS, SYNC,
};
use crate::sum::sum;

pub const PADDING: u8 = 0x55;

/// What a reading answers, without FL and both sums: writing works them out itself.
#[derive(Clone, Copy, Debug, PartialEq, Eq)]
pub struct Fields {
    pub level: u8,
    /// True for F8 C5 49.
    pub fsync1: bool,
    pub fct: u8,
    pub ficf: bool,
    /// The count of table entries.
    pub nst: u8,
    pub fp: u8,
    pub mid: u8,
    pub mnsc: u16,
    /// The two reserved bytes behind the main-stream sum.
    pub rfu: u16,
    /// The reserved byte before the timestamp.
    pub rfa: u8,
    pub timestamp: Timestamp,
    pub table: Table,
}

impl Fields {
    /// Entries below the count, or all 64 if the count is larger.
    pub fn counted(&self) -> &[Stream] {
        &self.table[..usize::from(self.nst).min(MOST_STREAMS)]
    }

    pub fn fl(&self) -> usize {
        formula(ficl(self.ficf, self.mid), self.counted().iter().copied())
    }

    /// Bytes of the main stream.
    pub fn main_length(&self) -> usize {
        4 * (self.fl() - 1 - self.counted().len())
    }

    fn too_wide(&self) -> bool {
        self.level > 3
            || self.fp > 7
            || self.mid > 3
            || !self.timestamp.fits()
            || self.counted().iter().any(entry_too_wide)
    }

    fn judge(&self, main: &[u8], out: &[u8]) -> u8 {
        if out.len() != FRAME {
            1
        } else if self.too_wide() {
            12
        } else if usize::from(self.nst) > MOST_STREAMS {
            5
        } else if self.fct > MOST_FCT {
            7
        } else if self.counted().iter().any(|stream| stream.stl > MOST_STL) {
            8
        } else if self.fl() > MOST_FL {
            10
        } else if main.len() != self.main_length() {
            11
        } else {
            0
        }
    }

    /// Status, sync word and the logical frame up to MNSC.
    fn head(&self) -> Vec<u8> {
        let mut bytes = vec![STATUS[usize::from(self.level)]];
        bytes.extend(SYNC[usize::from(self.fsync1)]);
        bytes.push(self.fct);
        bytes.push(u8::from(self.ficf) << 7 | self.nst);
        let fl = self.fl() as u16;
        put(
            &mut bytes,
            u16::from(self.fp) << 13 | u16::from(self.mid) << 11 | fl,
        );
        for stream in self.counted() {
            put(&mut bytes, u16::from(stream.scid) << 10 | stream.sad);
            put(&mut bytes, u16::from(stream.tpl) << 10 | stream.stl);
        }
        put(&mut bytes, self.mnsc);
        bytes
    }
}

/// 0 if the frame is written, else the refusal number, with `out` untouched.
pub fn write(fields: &Fields, main: &[u8], out: &mut [u8]) -> u8 {
    let number = fields.judge(main, out);
    if number != 0 {
        return number;
    }
    let mut bytes = fields.head();
    let header_sum = sum(&bytes[LOGICAL..]);
    put(&mut bytes, header_sum);
    bytes.extend(main);
    put(&mut bytes, sum(main));
    put(&mut bytes, fields.rfu);
    bytes.push(fields.rfa);
    bytes.extend(&fields.timestamp.number().to_be_bytes()[1..]);
    bytes.resize(FRAME, PADDING);
    out.copy_from_slice(&bytes);
    0
}

fn entry_too_wide(stream: &Stream) -> bool {
    stream.scid > 0x3F || stream.sad > 0x3FF || stream.tpl > 0x3F || stream.stl > 0x3FF
}

fn put(bytes: &mut Vec<u8>, number: u16) {
    bytes.extend(number.to_be_bytes());
}
