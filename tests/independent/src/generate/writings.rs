//! Field sets, main streams and output lengths for writing.

use super::frames::{entry, fct, lengths, reaching, shape, time, Shape};
use super::Random;
use crate::frame::{ficl, Stream, Table, Timestamp, EMPTY, FRAME, LAST_TIME, NO_TIME};
use crate::writing::Fields;

/// What is wrong with what is given to writing. Faults are made in this order.
#[derive(Clone, Copy, Debug, PartialEq, Eq, PartialOrd, Ord)]
pub enum Fault {
    LongFrame,
    LongStream,
    Count,
    HighFct,
    WideLevel,
    WideFp,
    WideMid,
    WideTime,
    WideScid,
    WideSad,
    WideTpl,
    WideStl,
    MainLength,
    OutLength,
}

use Fault::*;

#[rustfmt::skip]
pub const FAULTS: [Fault; 14] = [
    LongFrame, LongStream, Count, HighFct, WideLevel, WideFp, WideMid, WideTime, WideScid,
    WideSad, WideTpl, WideStl, MainLength, OutLength,
];

pub struct Writing {
    pub faults: Vec<Fault>,
    pub fields: Fields,
    pub main: Vec<u8>,
    pub out_length: usize,
}

pub fn writing_case(random: &mut Random) -> Writing {
    let faults = random.faults(&FAULTS);
    let mut fields = valid(random);
    for &fault in &faults {
        spoil(&mut fields, fault, random);
    }
    // A refused frame's main stream may be huge; its bytes are not looked at.
    let right = fields.main_length().min(2 * FRAME);
    let length = if faults.contains(&MainLength) {
        other_length(random, right)
    } else {
        right
    };
    let out_length = if faults.contains(&OutLength) {
        other_length(random, FRAME)
    } else {
        FRAME
    };
    Writing {
        main: random.bytes(length),
        faults,
        fields,
        out_length,
    }
}

/// A valid field set, with junk behind the count.
fn valid(random: &mut Random) -> Fields {
    let Shape {
        ficf,
        mid,
        count,
        most,
    } = shape(random);
    let total = random.pick(&[0, most, most / 2, most.min(30), most.min(8)]);
    Fields {
        level: random.below(4) as u8,
        fsync1: random.one_in(2),
        fct: fct(random),
        ficf,
        nst: count as u8,
        fp: random.below(8) as u8,
        mid,
        mnsc: random.number() as u16,
        rfu: random.pick(&[0xFFFF, 0, 0x9ABC]),
        rfa: random.pick(&[0xFF, 0, 0xDE]),
        timestamp: Timestamp::of(time(random)),
        table: table(random, count, total),
    }
}

fn table(random: &mut Random, count: usize, total: usize) -> Table {
    let mut table = EMPTY;
    for (place, stl) in table.iter_mut().zip(lengths(random, count, total)) {
        *place = entry(random, stl);
    }
    for place in &mut table[count..] {
        *place = junk(random);
    }
    table
}

/// An entry whose values mostly do not fit their fields.
fn junk(random: &mut Random) -> Stream {
    Stream {
        scid: random.byte(),
        sad: random.number() as u16,
        tpl: random.byte(),
        stl: random.pick(&[0, 685, 1023, 1024, 0xFFFF]),
    }
}

fn spoil(fields: &mut Fields, fault: Fault, random: &mut Random) {
    match fault {
        LongFrame => long_frame(fields, random),
        LongStream => counted(fields, random).stl = random.pick(&[685, 686, 1023]),
        Count => fields.nst = random.pick(&[65, 65, 66, 127, 128, 255]),
        HighFct => fields.fct = random.pick(&[250, 251, 255]),
        WideLevel => fields.level = random.pick(&[4, 5, 7, 255]),
        WideFp => fields.fp = random.pick(&[8, 15, 255]),
        WideMid => fields.mid = random.pick(&[4, 7, 255]),
        WideTime => {
            fields.timestamp = if random.one_in(2) {
                let above = [LAST_TIME + 1, NO_TIME - 1, NO_TIME, NO_TIME + 1, u32::MAX];
                Timestamp::Time(random.pick(&above))
            } else {
                let outside = [0, LAST_TIME, NO_TIME, NO_TIME + 1, u32::MAX];
                Timestamp::Reserved(random.pick(&outside))
            };
        }
        WideScid => counted(fields, random).scid = random.pick(&[63, 64, 128, 255]),
        WideSad => counted(fields, random).sad = random.pick(&[1023, 1024, 0xFFFF]),
        WideTpl => counted(fields, random).tpl = random.pick(&[63, 64, 255]),
        WideStl => counted(fields, random).stl = random.pick(&[684, 1024, 0xFFFF]),
        MainLength | OutLength => {}
    }
}

/// A total just above what FL allows, or one at which narrow arithmetic would wrap.
fn long_frame(fields: &mut Fields, random: &mut Random) {
    let fl = random.pick(&[1533, 1534, 2047, 2048, 2048 + 200, 65_536, 65_536 + 200]);
    let (count, total) = reaching(fl, ficl(fields.ficf, fields.mid), random);
    fields.nst = count as u8;
    fields.table = table(random, count, total);
}

/// An entry that has effect; there is one more if there was none.
fn counted<'a>(fields: &'a mut Fields, random: &mut Random) -> &'a mut Stream {
    if fields.nst == 0 {
        fields.nst = 1;
        fields.table[0] = entry(random, 0);
    }
    let index = random.below(fields.counted().len());
    &mut fields.table[index]
}

fn other_length(random: &mut Random, right: usize) -> usize {
    let any = random.below(2 * FRAME);
    random.pick(&[right + 1, right.saturating_sub(1), right + 8, 0, any])
}
