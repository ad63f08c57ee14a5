//! Frames: valid ones of every shape, and faults alone and together.

use super::Random;
use crate::frame::{
    ficl, formula, Stream, FRAME, LAST_TIME, LOGICAL, MOST_FL, MOST_STL, NO_TIME, STATUS, SYNC,
};
use crate::sum::sum;
use crate::writing::PADDING;

/// What is wrong or unusual with a frame. Faults are made in this order, so that sums fit what
/// comes before them.
#[derive(Clone, Copy, Debug, PartialEq, Eq, PartialOrd, Ord)]
pub enum Fault {
    ManyStreams,
    LongFrame,
    LongStream,
    WrappedFl,
    WrongFl,
    HighFct,
    AnyHeader,
    HeaderSum,
    MainSum,
    Null,
    SyncWord,
    Status,
    HeaderBit,
    Padding,
    Length,
}
use Fault::*;

#[rustfmt::skip]
pub const FAULTS: [Fault; 15] = [
    ManyStreams, LongFrame, LongStream, WrappedFl, WrongFl, HighFct, AnyHeader, HeaderSum,
    MainSum, Null, SyncWord, Status, HeaderBit, Padding, Length,
];

/// Everything a frame is laid out from; unlike the fields of writing it can be wrong in any way.
pub struct Draft {
    pub status: u8,
    pub sync: [u8; 3],
    pub fct: u8,
    pub ficf: bool,
    pub fp: u8,
    pub mid: u8,
    pub fl: usize,
    pub table: Vec<Stream>,
    pub mnsc: u16,
    /// Added to the right sums bit by bit.
    pub header_sum_error: u16,
    pub main_sum_error: u16,
    pub rfu: u16,
    pub rfa: u8,
    pub time: u32,
}

impl Draft {
    /// A valid frame of any shape.
    pub fn valid(random: &mut Random) -> Draft {
        let Shape {
            ficf,
            mid,
            count,
            most,
        } = shape(random);
        let total = match random.below(16) {
            0 => 0,
            1 => most,
            2 => random.within(0, most),
            _ => random.within(0, most.min(60)),
        };
        let mut draft = Draft {
            status: random.pick(&STATUS),
            sync: random.pick(&SYNC),
            fct: fct(random),
            ficf,
            fp: random.below(8) as u8,
            mid,
            fl: 0,
            table: Vec::new(),
            mnsc: random.number() as u16,
            header_sum_error: 0,
            main_sum_error: 0,
            rfu: random.pick(&[0xFFFF, 0, 0x1234]),
            rfa: random.pick(&[0xFF, 0, 0x56]),
            time: time(random),
        };
        draft.set_lengths(&lengths(random, count, total), random);
        draft
    }

    fn set_lengths(&mut self, lengths: &[u16], random: &mut Random) {
        self.table = lengths.iter().map(|&stl| entry(random, stl)).collect();
        self.set_fl();
    }

    pub fn set_fl(&mut self) {
        self.fl = self.formula();
    }

    fn formula(&self) -> usize {
        formula(ficl(self.ficf, self.mid), self.table.iter().copied())
    }

    /// Bytes of the main stream by FL, as far as a frame has room.
    pub fn main_length(&self) -> usize {
        let words = (self.fl & 0x7FF).saturating_sub(self.table.len() + 1);
        4 * words.min(MOST_FL)
    }

    /// The faults that are made before the frame is laid out.
    fn add(&mut self, fault: Fault, random: &mut Random) {
        match fault {
            ManyStreams => self.many_streams(random),
            LongFrame => {
                let fl = random.pick(&[1533, 1533, 1534, 1535, 1600, 2045]);
                self.reach(fl, random);
            }
            LongStream => self.long_stream(random),
            WrappedFl => {
                let fl = random.within(90, MOST_FL) + random.pick(&[0x800, 0x1000, 0x1_0000]);
                self.reach(fl, random);
            }
            WrongFl => self.wrong_fl(random),
            HighFct => self.fct = random.pick(&[250, 250, 251, 255]),
            HeaderSum => self.header_sum_error = error(random),
            MainSum => self.main_sum_error = error(random),
            _ => {}
        }
    }

    fn many_streams(&mut self, random: &mut Random) {
        let count = random.pick(&[65, 65, 66, 100, 126, 127]);
        self.table.resize(count, Stream::default());
        self.set_fl();
    }

    /// Streams by which the formula gives FL as asked, or one more.
    pub fn reach(&mut self, fl: usize, random: &mut Random) {
        let (count, total) = reaching(fl, ficl(self.ficf, self.mid), random);
        let lengths = lengths(random, count, total);
        self.set_lengths(&lengths, random);
    }

    fn long_stream(&mut self, random: &mut Random) {
        if self.table.is_empty() {
            self.table.push(entry(random, 0));
        }
        let index = random.below(self.table.len());
        self.table[index].stl = random.pick(&[685, 685, 686, 1023]);
        self.set_fl();
    }

    fn wrong_fl(&mut self, random: &mut Random) {
        self.fl = match random.below(4) {
            0 => self.fl + 1,
            1 => self.fl.saturating_sub(1),
            // What FL would be with the FIC length of another mode.
            2 => self.fl ^ 8,
            _ => random.below(0x800),
        };
    }

    /// The frame's bytes, around the main stream given.
    pub fn lay_out(&self, main: &[u8]) -> Vec<u8> {
        let mut bytes = vec![self.status];
        bytes.extend(self.sync);
        bytes.push(self.fct);
        bytes.push(u8::from(self.ficf) << 7 | self.table.len() as u8);
        let fl = (self.fl & 0x7FF) as u16;
        bytes.extend((u16::from(self.fp) << 13 | u16::from(self.mid) << 11 | fl).to_be_bytes());
        bytes.extend(self.table.iter().flat_map(entry_bytes));
        bytes.extend(self.mnsc.to_be_bytes());
        let header_sum = sum(&bytes[LOGICAL..]) ^ self.header_sum_error;
        bytes.extend(header_sum.to_be_bytes());
        bytes.extend(main);
        bytes.extend((sum(main) ^ self.main_sum_error).to_be_bytes());
        bytes.extend(self.rfu.to_be_bytes());
        bytes.push(self.rfa);
        bytes.extend(&self.time.to_be_bytes()[1..]);
        bytes.resize(FRAME, PADDING);
        bytes
    }

    /// The frame's bytes around random content.
    pub fn frame(&self, random: &mut Random) -> Vec<u8> {
        let main = random.bytes(self.main_length());
        self.lay_out(&main)
    }

    /// Bytes from the frame's start that are not padding.
    pub fn carried(&self) -> usize {
        LOGICAL + (self.fl + 3) * 4
    }
}

/// A frame, with the faults that are in it.
pub fn frame_case(random: &mut Random) -> (Vec<Fault>, Vec<u8>) {
    let faults = random.faults(&FAULTS);
    let frame = frame_with(&faults, random);
    (faults, frame)
}

pub fn frame_with(faults: &[Fault], random: &mut Random) -> Vec<u8> {
    let mut draft = Draft::valid(random);
    for &fault in faults {
        draft.add(fault, random);
    }
    let mut frame = draft.frame(random);
    for &fault in faults {
        damage(&mut frame, fault, &draft, random);
    }
    frame
}

/// The faults that are made in the bytes themselves.
fn damage(frame: &mut Vec<u8>, fault: Fault, draft: &Draft, random: &mut Random) {
    let header_bytes = LOGICAL + (draft.table.len() + 2) * 4;
    match fault {
        AnyHeader => {
            random.fill(&mut frame[LOGICAL..LOGICAL + 4]);
            frame[LOGICAL + 1] &= 0xBF;
            repair_header_sum(frame);
        }
        Null => frame[LOGICAL..LOGICAL + 4].fill(0xFF),
        SyncWord => wrong_sync_word(frame, random),
        Status => frame[0] = random.byte(),
        HeaderBit => flip(&mut frame[..header_bytes], random),
        Padding => {
            let carried = draft.carried().min(frame.len());
            random.fill(&mut frame[carried..]);
        }
        Length => {
            let any = random.below(6201);
            frame.resize(random.pick(&[0, 1, 4, 8, 6143, 6145, any, any]), PADDING);
        }
        _ => {}
    }
}

fn repair_header_sum(frame: &mut [u8]) {
    let end = LOGICAL + usize::from(frame[LOGICAL + 1] & 0x7F) * 4 + 6;
    let right = sum(&frame[LOGICAL..end]);
    frame[end..end + 2].copy_from_slice(&right.to_be_bytes());
}

pub fn wrong_sync_word(frame: &mut [u8], random: &mut Random) {
    match random.below(3) {
        0 => flip(&mut frame[1..4], random),
        // Bytes of the two words mixed.
        1 => frame[random.within(1, 3)] ^= 0xFF,
        _ => random.fill(&mut frame[1..4]),
    }
}

pub fn flip(bytes: &mut [u8], random: &mut Random) {
    let bit = random.below(bytes.len() * 8);
    bytes[bit / 8] ^= 0x80 >> (bit % 8);
}

/// What decides how much room the streams have.
pub struct Shape {
    pub ficf: bool,
    pub mid: u8,
    pub count: usize,
    /// The largest sum of STLs for which FL is not above its limit.
    pub most: usize,
}

pub fn shape(random: &mut Random) -> Shape {
    let (ficf, mid) = (random.one_in(2), random.below(4) as u8);
    let count = stream_count(random);
    let words = MOST_FL - formula(ficl(ficf, mid), vec![Stream::default(); count].into_iter());
    Shape {
        ficf,
        mid,
        count,
        most: (words / 2).min(count * usize::from(MOST_STL)),
    }
}

/// A count and a total of STLs for which the formula gives FL as asked, or one more.
pub fn reaching(fl: usize, ficl: usize, random: &mut Random) -> (usize, usize) {
    let count = if fl > 4096 { 64 } else { random.within(8, 64) };
    (count, (fl - ficl - count - 1).div_ceil(2))
}

/// FCT, more often at its limits.
pub fn fct(random: &mut Random) -> u8 {
    let any = random.within(0, 249) as u8;
    random.pick(&[0, 249, any, any])
}

/// NST, more often at its limits.
fn stream_count(random: &mut Random) -> usize {
    match random.below(16) {
        0 => 64,
        1 => 63,
        2 | 3 => 0,
        4 | 5 => random.within(0, 64),
        _ => random.within(1, 5),
    }
}

/// STLs of at most 684 with the total asked, as far as the count allows.
pub fn lengths(random: &mut Random, count: usize, total: usize) -> Vec<u16> {
    let most = usize::from(MOST_STL);
    let mut left = total;
    let mut lengths: Vec<usize> = Vec::new();
    for _ in 0..count {
        let share = random.within(0, left.min(most));
        left -= share;
        lengths.push(share);
    }
    for length in &mut lengths {
        let more = left.min(most - *length);
        left -= more;
        *length += more;
    }
    lengths.iter().map(|&length| length as u16).collect()
}

pub fn entry(random: &mut Random, stl: u16) -> Stream {
    Stream {
        scid: random.below(64) as u8,
        sad: random.below(1024) as u16,
        tpl: random.below(64) as u8,
        stl,
    }
}

/// A timestamp's number, more often at the limits of its sorts.
pub fn time(random: &mut Random) -> u32 {
    let any = random.number() as u32 & NO_TIME;
    random.pick(&[
        NO_TIME,
        NO_TIME - 1,
        LAST_TIME + 1,
        LAST_TIME,
        0,
        0xFF_FF00,
        0x00_FFFF,
        any,
        any,
    ])
}

fn entry_bytes(stream: &Stream) -> [u8; 4] {
    let high = u32::from(stream.scid) << 26 | u32::from(stream.sad) << 16;
    (high | u32::from(stream.tpl) << 10 | u32::from(stream.stl)).to_be_bytes()
}

/// Never zero; often a single bit.
fn error(random: &mut Random) -> u16 {
    let any = random.number() as u16 | 1;
    let bit = 1 << random.below(16);
    random.pick(&[bit, any])
}
