//! A network frame regenerated from the TAG items of an EDI packet (EDI, clause 5 and annex A.2).

use crate::frame::{
    ficl, FRAME, LOGICAL, MOST_FCT, MOST_FL, MOST_STL, MOST_STREAMS, NO_TIME, STATUS, SYNC,
};
use crate::sum::sum;
use crate::writing::PADDING;

/// A name of four bytes and a length in bits stand before an item's value; fewer bytes at the packet's end are padding.
const ITEM_HEAD: usize = 8;
/// The deti header and the ETI header, which every management item has.
const HEADERS: usize = 6;
/// UTCO, Seconds and TSTA.
const ATST: usize = 8;
const RFUD: usize = 3;
/// SCID, SAD, TPL and two bits of padding stand before a stream's bytes.
const STREAM_HEAD: usize = 3;
/// The largest STL that its field holds.
const WIDEST_STL: usize = 0x3FF;

/// 0 if the frame is written, else the refusal number, with `out` untouched.
pub fn regenerate(packet: &[u8], fsync1: bool, out: &mut [u8]) -> u8 {
    match judged(packet, out.len()) {
        Ok((management, streams)) => {
            lay_out(&management, streams.counted(), fsync1, out);
            0
        }
        Err(number) => number,
    }
}

/// The tests in their order: 20, 21, 22, 35, and those of writing.
fn judged(packet: &[u8], out_length: usize) -> Result<(Management<'_>, Streams<'_>), u8> {
    let (value, streams) = items(packet)?;
    let management = Management::of(value.ok_or(21)?).ok_or(21)?;
    if !streams.each_once() {
        return Err(22);
    }
    if !STATUS.contains(&management.stat) {
        return Err(35);
    }
    let stls = || streams.counted().iter().map(|stream| stl(stream));
    let number = if out_length != FRAME {
        1
    } else if stls().any(|stl| stl > WIDEST_STL) {
        12
    } else if management.fct > MOST_FCT {
        7
    } else if stls().any(|stl| stl > usize::from(MOST_STL)) {
        8
    } else if fl(&management, streams.counted()) > MOST_FL {
        10
    } else {
        return Ok((management, streams));
    };
    Err(number)
}

/// The value of the only management item, if there is but one, and the stream items; 20 for an item that cannot be.
fn items(packet: &[u8]) -> Result<(Option<&[u8]>, Streams<'_>), u8> {
    let mut managements = 0;
    let mut management = None;
    let mut streams = Streams::none();
    let mut left = packet;
    while left.len() >= ITEM_HEAD {
        let (head, behind) = left.split_at(ITEM_HEAD);
        let bits = u32::from_be_bytes([head[4], head[5], head[6], head[7]]);
        let bytes = bits as usize / 8;
        if bits % 8 != 0 || bytes > behind.len() {
            return Err(20);
        }
        let (value, next) = behind.split_at(bytes);
        match head[..4] {
            [b'd', b'e', b't', b'i'] => {
                managements += 1;
                management = Some(value);
            }
            [b'e', b's', b't', number @ 1..=64] => {
                if bits < 24 || (bits - 24) % 64 != 0 {
                    return Err(20);
                }
                streams.add(number, value);
            }
            // Any other name is passed over.
            _ => {}
        }
        left = next;
    }
    Ok((management.filter(|_| managements == 1), streams))
}

/// What the management item says (clause 5.1.3).
struct Management<'a> {
    fct: u8,
    stat: u8,
    mid: u8,
    fp: u8,
    mnsc: &'a [u8],
    tsta: Option<&'a [u8]>,
    /// Where FICF is 1.
    fic: Option<&'a [u8]>,
    rfud: Option<&'a [u8]>,
}

impl<'a> Management<'a> {
    /// Nothing, where the length is not the one that the flags and MID call for.
    fn of(value: &'a [u8]) -> Option<Management<'a>> {
        let mut rest = value;
        let headers = take(&mut rest, HEADERS)?;
        let flag = |bit: u8| headers[0] & 0x80 >> bit != 0;
        let (mid, fp) = (headers[3] >> 6, headers[3] >> 3 & 7);
        let mut field = |flagged: bool, length: usize| match flagged {
            true => take(&mut rest, length).map(Some),
            false => Some(None),
        };
        let atst = field(flag(0), ATST)?;
        let fic = field(flag(1), 4 * ficl(true, mid))?;
        let rfud = field(flag(2), RFUD)?;
        rest.is_empty().then_some(Management {
            fct: headers[1],
            stat: headers[2],
            mid,
            fp,
            mnsc: &headers[4..6],
            tsta: atst.map(|atst| &atst[5..]),
            fic,
            rfud,
        })
    }

    fn ficf(&self) -> bool {
        self.fic.is_some()
    }
}

/// The first bytes, which are then no longer among those left.
fn take<'a>(left: &mut &'a [u8], length: usize) -> Option<&'a [u8]> {
    let (taken, behind) = left.split_at_checked(length)?;
    *left = behind;
    Some(taken)
}

/// The values of the stream items, at their number less one. No value is empty.
struct Streams<'a> {
    values: [&'a [u8]; MOST_STREAMS],
    /// The highest number present.
    nst: usize,
    repeated: bool,
}

impl<'a> Streams<'a> {
    fn none() -> Streams<'a> {
        Streams {
            values: [&[]; MOST_STREAMS],
            nst: 0,
            repeated: false,
        }
    }

    fn add(&mut self, number: u8, value: &'a [u8]) {
        let number = usize::from(number);
        self.repeated |= !self.values[number - 1].is_empty();
        self.values[number - 1] = value;
        self.nst = self.nst.max(number);
    }

    fn counted(&self) -> &[&'a [u8]] {
        &self.values[..self.nst]
    }

    fn each_once(&self) -> bool {
        !self.repeated && self.counted().iter().all(|value| !value.is_empty())
    }
}

/// The stream's bytes in units of eight.
fn stl(stream: &[u8]) -> usize {
    (stream.len() - STREAM_HEAD) / 8
}

/// FL by its formula, in words of four bytes.
fn fl(management: &Management, streams: &[&[u8]]) -> usize {
    let words: usize = streams.iter().map(|stream| 1 + 2 * stl(stream)).sum();
    1 + ficl(management.ficf(), management.mid) + words
}

/// The frame's bytes from first to last.
fn lay_out(management: &Management, streams: &[&[u8]], fsync1: bool, out: &mut [u8]) {
    let mut pen = Pen { out, at: 0 };
    pen.put(&[management.stat]);
    pen.put(&SYNC[usize::from(fsync1)]);
    let ficf = u8::from(management.ficf()) << 7;
    pen.put(&[management.fct, ficf | streams.len() as u8]);
    let high = u16::from(management.fp) << 13 | u16::from(management.mid) << 11;
    pen.put(&(high | fl(management, streams) as u16).to_be_bytes());
    for stream in streams {
        // SCID and SAD stand as they will; behind TPL, STL takes the place of the padding.
        let tpl = u16::from(stream[2] >> 2) << 10;
        pen.put(&stream[..2]);
        pen.put(&(tpl | stl(stream) as u16).to_be_bytes());
    }
    pen.put(management.mnsc);
    pen.put_sum_from(LOGICAL);
    let main = pen.at;
    pen.put(management.fic.unwrap_or_default());
    for stream in streams {
        pen.put(&stream[STREAM_HEAD..]);
    }
    pen.put_sum_from(main);
    // Reserved bits and a missing timestamp are all ones.
    pen.put(management.rfud.unwrap_or(&[0xFF; RFUD]));
    pen.put(management.tsta.unwrap_or(&NO_TIME.to_be_bytes()[1..]));
    pen.pad();
}

/// Writes one part behind the other.
struct Pen<'a> {
    out: &'a mut [u8],
    at: usize,
}

impl Pen<'_> {
    fn put(&mut self, bytes: &[u8]) {
        let end = self.at + bytes.len();
        self.out[self.at..end].copy_from_slice(bytes);
        self.at = end;
    }

    /// The sum of what was written from a place on.
    fn put_sum_from(&mut self, start: usize) {
        let sum = sum(&self.out[start..self.at]);
        self.put(&sum.to_be_bytes());
    }

    fn pad(&mut self) {
        self.out[self.at..].fill(PADDING);
    }
}
