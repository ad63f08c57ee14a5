//! Frames for the profile: tables that fill the capacity units, and each way to spoil one.

use super::frames::{frame_case, Draft};
use super::Random;
use crate::frame::{Stream, MOST_FL, MOST_STL, MOST_STREAMS};
use crate::profile::{size, UNITS};

/// What is done to a table that passes.
#[derive(Clone, Copy, Debug, PartialEq, Eq)]
pub enum Change {
    Nothing,
    /// The last unit is 863; 864.
    LastUnit,
    OneBeyond,
    SameScid,
    /// An STL of another rate, any TPL.
    OtherStl,
    OtherTpl,
    ReservedBit,
    /// One unit more than touching.
    OneShared,
    AnySad,
    NoLength,
    AnyEntry,
}
use Change::*;

#[rustfmt::skip]
pub const CHANGES: [Change; 11] = [
    Nothing, LastUnit, OneBeyond, SameScid, OtherStl, OtherTpl, ReservedBit, OneShared, AnySad, NoLength, AnyEntry,
];

/// A frame, with what was done to its table; now and then one of any sort.
pub fn profile_case(random: &mut Random) -> (Vec<Change>, Vec<u8>) {
    if random.one_in(8) {
        return (Vec::new(), frame_case(random).1);
    }
    let mut table = packed(random);
    let count = random.pick(&[0, 1, 1, 1, 2, 3]);
    let changes: Vec<Change> = (0..count).map(|_| random.pick(&CHANGES)).collect();
    for &change in &changes {
        spoil(&mut table, change, random);
    }
    (changes, frame_of(table, random))
}

/// A frame that reading accepts, with these streams, as long as they find room.
pub fn frame_of(table: Vec<Stream>, random: &mut Random) -> Vec<u8> {
    let mut draft = Draft::valid(random);
    draft.ficf = false;
    draft.table = table;
    draft.set_fl();
    while draft.fl > MOST_FL {
        draft.table.pop();
        draft.set_fl();
    }
    draft.frame(random)
}

/// A stream of each TPL and STL in turn.
pub fn alone(n: u64) -> Stream {
    let (tpl, stl) = (n % 64, n / 64 % (u64::from(MOST_STL) + 1));
    Stream {
        scid: 0,
        sad: 0,
        tpl: tpl as u8,
        stl: stl as u16,
    }
}

/// Streams with a size, one behind another with gaps or none, in any order.
pub fn packed(random: &mut Random) -> Vec<Stream> {
    let most = random.pick(&[1, 2, 3, 8, 20, MOST_STREAMS, MOST_STREAMS]);
    let gaps = random.pick(&[1, 1, 1, 4]);
    let small = random.one_in(2);
    let mut table: Vec<Stream> = Vec::new();
    let mut unit = 0;
    while table.len() < most {
        let (tpl, stl, size) = sized(small, random);
        unit += random.below(gaps);
        if unit + size > UNITS {
            break;
        }
        table.push(Stream {
            scid: table.len() as u8,
            sad: unit as u16,
            tpl,
            stl,
        });
        unit += size;
    }
    for i in (1..table.len()).rev() {
        table.swap(i, random.below(i + 1));
    }
    table
}

/// TPL and STL that have a size.
fn sized(small: bool, random: &mut Random) -> (u8, u16, usize) {
    const STLS: [u16; 14] = [12, 18, 21, 24, 30, 36, 42, 48, 60, 72, 84, 96, 120, 144];
    loop {
        let tpl = random.below(64) as u8;
        let stl = match random.below(3) {
            _ if small => random.pick(&[3, 3, 6, 12]),
            0 => random.pick(&STLS),
            1 => 3 * random.within(1, 20) as u16,
            _ => 12 * random.within(1, 12) as u16,
        };
        if let Some(size) = size(tpl, stl) {
            return (tpl, stl, size);
        }
    }
}

fn spoil(table: &mut [Stream], change: Change, random: &mut Random) {
    if table.is_empty() {
        return;
    }
    let (i, j) = (random.below(table.len()), random.below(table.len()));
    let units = size(table[i].tpl, table[i].stl).unwrap_or(1);
    match change {
        Nothing => {}
        LastUnit => table[i].sad = UNITS.saturating_sub(units) as u16,
        OneBeyond => table[i].sad = (UNITS + 1).saturating_sub(units) as u16,
        SameScid => table[i].scid = table[j].scid,
        OtherStl => {
            table[i].stl = random.pick(&[1, 2, 3, 11, 12, 13, 20, 21, 22, 24, 119, 143, 144])
        }
        OtherTpl => table[i].tpl = random.below(64) as u8,
        ReservedBit => table[i].tpl ^= 16,
        OneShared => {
            let behind = table[j].sad + size(table[j].tpl, table[j].stl).unwrap_or(0) as u16;
            table[i].sad = behind.saturating_sub(random.pick(&[0, 1])) % 1024;
        }
        AnySad => table[i].sad = random.below(1024) as u16,
        NoLength => {
            table[i].stl = 0;
            table[i].sad = random.below(1024) as u16;
        }
        AnyEntry => {
            table[i] = Stream {
                scid: random.below(64) as u8,
                sad: random.below(1024) as u16,
                tpl: random.below(64) as u8,
                stl: random.below(40) as u16,
            }
        }
    }
}
