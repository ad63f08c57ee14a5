//! Reading one network frame, and the parts of its main stream.

use crate::sum::sum;
use std::ops::Range;

/// Bytes of a network frame, and so of a period.
pub const FRAME: usize = 6144;
pub const MOST_STREAMS: usize = 64;
pub const MOST_FCT: u8 = 249;
pub const MOST_STL: u16 = 684;
pub const MOST_FL: usize = 1532;
/// The timestamp number that means none is given.
pub const NO_TIME: u32 = 0xFF_FFFF;
/// The last time, F9FFFF: a second of 16.384 MHz less one period (annex C.2.1). Between it and none all is reserved (C.2.3).
pub const LAST_TIME: u32 = 16_384_000 - 1;
/// The refusal number of a null transmission.
pub const NULL_TRANSMISSION: u8 = 4;
/// The logical frame begins behind status and sync word.
pub const LOGICAL: usize = 4;
/// Status bytes of levels 0 to 3 as clause 5.2 has them; the paper's copy swaps levels 1 and 2.
pub const STATUS: [u8; 4] = [0xFF, 0xF0, 0x0F, 0x00];
pub const SYNC: [[u8; 3]; 2] = [[0x07, 0x3A, 0xB6], [0xF8, 0xC5, 0x49]];

/// The sorts of annex C.2.
#[derive(Clone, Copy, Debug, PartialEq, Eq)]
pub enum Timestamp {
    Time(u32),
    Reserved(u32),
    None,
}

impl Timestamp {
    /// What a number of 24 bits means.
    pub fn of(number: u32) -> Timestamp {
        if number == NO_TIME {
            Timestamp::None
        } else if number <= LAST_TIME {
            Timestamp::Time(number)
        } else {
            Timestamp::Reserved(number)
        }
    }

    /// The number that is sent for it.
    pub fn number(self) -> u32 {
        match self {
            Timestamp::Time(number) | Timestamp::Reserved(number) => number,
            Timestamp::None => NO_TIME,
        }
    }

    /// Whether its number is in its sort's range; beside none stands no number.
    pub fn fits(self) -> bool {
        match self {
            Timestamp::Time(number) => number <= LAST_TIME,
            Timestamp::Reserved(number) => LAST_TIME < number && number < NO_TIME,
            Timestamp::None => true,
        }
    }
}

#[derive(Clone, Copy, Debug, PartialEq, Eq)]
pub struct Header {
    pub level: u8,
    /// True for F8 C5 49.
    pub fsync1: bool,
    pub fct: u8,
    pub ficf: bool,
    pub nst: u8,
    pub fp: u8,
    pub mid: u8,
    pub fl: u16,
    pub mnsc: u16,
    pub rfu: u16,
    pub rfa: u8,
    pub timestamp: Timestamp,
    /// The main-stream sum as sent.
    pub sent: u16,
    /// The main-stream sum as worked out, also where it is the one sent.
    pub worked: u16,
}

#[derive(Clone, Copy, Debug, Default, PartialEq, Eq)]
pub struct Stream {
    pub scid: u8,
    pub sad: u16,
    pub tpl: u8,
    pub stl: u16,
}

pub type Table = [Stream; MOST_STREAMS];

pub const EMPTY: Table = [Stream {
    scid: 0,
    sad: 0,
    tpl: 0,
    stl: 0,
}; MOST_STREAMS];

#[derive(Clone, Copy, Debug, PartialEq, Eq)]
pub struct Reading {
    pub header: Header,
    pub table: Table,
}

/// Words of FIC data.
pub fn ficl(ficf: bool, mid: u8) -> usize {
    match (ficf, mid) {
        (false, _) => 0,
        (true, 3) => 32,
        (true, _) => 24,
    }
}

/// FL by its formula.
pub fn formula(ficl: usize, table: impl Iterator<Item = Stream>) -> usize {
    table.fold(1 + ficl, |words, stream| {
        words + 1 + 2 * usize::from(stream.stl)
    })
}

/// The refusal number of a frame, 0 if it is accepted.
#[inline]
pub fn judge(frame: &[u8]) -> u8 {
    if frame.len() != FRAME {
        1
    } else if fsync1(frame).is_none() {
        2
    } else if !STATUS.contains(&frame[0]) {
        3
    } else {
        judge_logical(frame)
    }
}

/// Rules 4 to 10, of a frame that the earlier rules accept.
fn judge_logical(frame: &[u8]) -> u8 {
    if frame[LOGICAL..LOGICAL + 4] == [0xFF; 4] {
        NULL_TRANSMISSION
    } else if nst(frame) > MOST_STREAMS {
        5
    } else if sum(header_summed(frame)) != two(frame, main_start(frame) - 2) {
        6
    } else if frame[LOGICAL] > MOST_FCT {
        7
    } else if entries(frame).any(|stream| stream.stl > MOST_STL) {
        8
    } else if fl(frame) != formula(ficl_of(frame), entries(frame)) {
        9
    } else if fl(frame) > MOST_FL {
        10
    } else {
        0
    }
}

pub fn read(frame: &[u8]) -> Result<Reading, u8> {
    accepted(frame)?;
    let mut table = EMPTY;
    for (place, stream) in table.iter_mut().zip(entries(frame)) {
        *place = stream;
    }
    let header = header(frame);
    Ok(Reading { header, table })
}

/// The header of an accepted frame.
fn header(frame: &[u8]) -> Header {
    let end = main_end(frame);
    let sent = two(frame, end);
    let worked = sum(&frame[main_start(frame)..end]);
    let number = two(frame, end + 4) & 0xFF;
    let time = u32::from(number) << 16 | u32::from(two(frame, end + 6));
    Header {
        level: level_handed_on(frame, sent == worked),
        fsync1: fsync1(frame) == Some(true),
        fct: frame[LOGICAL],
        ficf: ficf(frame),
        nst: nst(frame) as u8,
        fp: frame[LOGICAL + 2] >> 5,
        mid: mid(frame),
        fl: fl(frame) as u16,
        mnsc: two(frame, main_start(frame) - 4),
        rfu: two(frame, end + 2),
        rfa: frame[end + 4],
        timestamp: Timestamp::of(time),
        sent,
        worked,
    }
}

/// A wrong main-stream sum raises the level to 2; nothing lowers it.
fn level_handed_on(frame: &[u8], sums_agree: bool) -> u8 {
    let read = STATUS.iter().position(|&byte| byte == frame[0]);
    let level = read.unwrap_or(3) as u8;
    if sums_agree {
        level
    } else {
        level.max(2)
    }
}

/// The main stream's part of the frame.
pub fn main_stream_part(frame: &[u8]) -> Result<Range<usize>, u8> {
    accepted(frame)?;
    Ok(main_start(frame)..main_end(frame))
}

pub fn fic_part(frame: &[u8]) -> Result<Range<usize>, u8> {
    accepted(frame)?;
    let start = main_start(frame);
    Ok(start..start + 4 * ficl_of(frame))
}

pub fn stream_part(frame: &[u8], index: usize) -> Result<Range<usize>, u8> {
    let fic = fic_part(frame)?;
    let stream = entries(frame).nth(index).ok_or(13)?;
    let start = entries(frame)
        .take(index)
        .fold(fic.end, |place, before| place + bytes_of(before));
    Ok(start..start + bytes_of(stream))
}

fn accepted(frame: &[u8]) -> Result<(), u8> {
    match judge(frame) {
        0 => Ok(()),
        number => Err(number),
    }
}

/// Which sync word the frame has, if it has one.
#[inline]
pub fn fsync1(frame: &[u8]) -> Option<bool> {
    match frame[1..4] {
        [0x07, 0x3A, 0xB6] => Some(false),
        [0xF8, 0xC5, 0x49] => Some(true),
        _ => None,
    }
}

fn two(frame: &[u8], at: usize) -> u16 {
    u16::from_be_bytes([frame[at], frame[at + 1]])
}

fn nst(frame: &[u8]) -> usize {
    usize::from(frame[LOGICAL + 1] & 0x7F)
}

fn ficf(frame: &[u8]) -> bool {
    frame[LOGICAL + 1] & 0x80 != 0
}

fn mid(frame: &[u8]) -> u8 {
    frame[LOGICAL + 2] >> 3 & 3
}

fn fl(frame: &[u8]) -> usize {
    usize::from(two(frame, LOGICAL + 2) & 0x7FF)
}

fn ficl_of(frame: &[u8]) -> usize {
    ficl(ficf(frame), mid(frame))
}

/// The NST entries of the stream table.
fn entries(frame: &[u8]) -> impl Iterator<Item = Stream> + '_ {
    frame[LOGICAL + 4..]
        .chunks_exact(4)
        .take(nst(frame))
        .map(entry)
}

fn entry(bytes: &[u8]) -> Stream {
    let high = two(bytes, 0);
    let low = two(bytes, 2);
    Stream {
        scid: (high >> 10) as u8,
        sad: high & 0x3FF,
        tpl: (low >> 10) as u8,
        stl: low & 0x3FF,
    }
}

/// What the header sum covers: logical bytes up to and with MNSC.
fn header_summed(frame: &[u8]) -> &[u8] {
    &frame[LOGICAL..main_start(frame) - 2]
}

fn main_start(frame: &[u8]) -> usize {
    LOGICAL + (nst(frame) + 2) * 4
}

fn main_end(frame: &[u8]) -> usize {
    LOGICAL + (fl(frame) + 1) * 4
}

fn bytes_of(stream: Stream) -> usize {
    8 * usize::from(stream.stl)
}
