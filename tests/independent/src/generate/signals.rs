//! Frames with signalling: messages with other groups between, groups and frames missing, repeated, changed.

use super::Random;
use crate::signalling::{frames, Frame, Group};
use crate::sum::sum;

/// What happens to the groups of a case and to its frames.
#[derive(Clone, Copy, Debug, PartialEq, Eq, PartialOrd, Ord)]
pub enum Fault {
    GroupLost,
    GroupTwice,
    GroupsSwapped,
    WrongByte,
    OtherCount,
    FrameLost,
    FrameTwice,
    OtherPhase,
    FrameBefore,
    AnyFrames,
}

use Fault::*;

#[rustfmt::skip]
const FAULTS: [Fault; 10] = [
    GroupLost, GroupTwice, GroupsSwapped, WrongByte, OtherCount, FrameLost, FrameTwice, OtherPhase,
    FrameBefore, AnyFrames,
];

pub struct Signals {
    pub faults: Vec<Fault>,
    pub frames: Vec<Frame>,
}

pub fn signals_case(random: &mut Random) -> Signals {
    let faults = random.faults(&FAULTS);
    let mut groups = Vec::new();
    for _ in 0..random.within(1, 3) {
        groups.extend(message(random));
    }
    for &fault in &faults {
        spoil_groups(&mut groups, fault, random);
    }
    let groups = with_others(groups, random);
    let mut frames = frames(&groups.concat());
    for &fault in &faults {
        spoil_frames(&mut frames, fault, random);
    }
    Signals { faults, frames }
}

/// The groups of a message, reserved bits now and then set.
fn message(random: &mut Random) -> Vec<Group> {
    let count = match random.below(16) {
        0 => 255,
        1..=6 => 0,
        _ => random.within(1, 6),
    };
    let mut groups: Vec<Group> = (0..count + 2).map(|_| any_group(random)).collect();
    let reserved = random.one_in(2);
    for (number, group) in groups.iter_mut().enumerate() {
        let kind = match number {
            0 => 0x00,
            _ if number == count + 1 => 0x0C,
            _ => 0x03,
        };
        group[0] = 0xC0 | kind | if reserved { group[0] & 0x30 } else { 0 };
        group[1] *= u8::from(reserved);
    }
    groups[0][3] = count as u8;
    close(&mut groups);
    groups
}

fn any_group(random: &mut Random) -> Group {
    random.number().to_le_bytes()
}

/// The closing sum, into the last group.
fn close(groups: &mut [Group]) {
    let covered = groups.concat();
    let closing = sum(&covered[..covered.len() - 2]).to_be_bytes();
    let end = groups.last_mut().expect("a message has an end");
    end[6..].copy_from_slice(&closing);
}

fn spoil_groups(groups: &mut Vec<Group>, fault: Fault, random: &mut Random) {
    let at = random.below(groups.len());
    match fault {
        GroupLost if groups.len() > 1 => drop(groups.remove(at)),
        GroupTwice => groups.insert(at, groups[at]),
        GroupsSwapped => {
            let other = random.below(groups.len());
            groups.swap(at, other);
        }
        WrongByte => groups[at][random.below(8)] ^= 1 << random.below(8),
        OtherCount => {
            groups[0][3] = groups[0][3].wrapping_add(random.pick(&[1, 255]));
            let end = groups.iter().position(|group| group[0] & 0x0F == 0x0C);
            close(&mut groups[..=end.unwrap_or(0)]);
        }
        _ => (),
    }
}

/// Padding and other groups that are passed over, anywhere.
fn with_others(groups: Vec<Group>, random: &mut Random) -> Vec<Group> {
    let chances = random.pick(&[2, 4, 100]);
    let mut all = Vec::new();
    for group in groups {
        while random.one_in(chances) {
            all.push(other(random));
        }
        all.push(group);
    }
    all
}

fn other(random: &mut Random) -> Group {
    let mut group = any_group(random);
    group[0] = match random.below(4) {
        0 => return [0xFF; 8],
        1 => 0xCF | group[0] & 0x30,
        2 => 0xC0 | group[0] & 0x30 | random.pick(&[1, 2, 4, 7, 8, 11, 13, 14]),
        _ => random.pick(&[0x00, 0x40, 0x80]) | group[0] & 0x3F,
    };
    group
}

fn spoil_frames(frames: &mut Vec<Frame>, fault: Fault, random: &mut Random) {
    let at = random.below(frames.len());
    match fault {
        FrameLost if frames.len() > 1 => drop(frames.remove(at)),
        FrameTwice => frames.insert(at, frames[at]),
        OtherPhase => frames[at].fp = random.byte(),
        FrameBefore => frames.insert(0, any_frame(random)),
        AnyFrames => {
            for _ in 0..random.within(1, 12) {
                frames.insert(at, any_frame(random));
            }
        }
        _ => (),
    }
}

fn any_frame(random: &mut Random) -> Frame {
    Frame {
        fp: random.byte(),
        mnsc: random.number() as u16,
    }
}

/// A type, message bytes and an output's length for the way back, now and then of another length.
pub fn sending_case(random: &mut Random) -> (u8, Vec<u8>, usize) {
    let any = random.below(1600);
    let count = random.pick(&[0, 0, 1, 2, 3, 254, 255, 256]);
    let right = 8 + 6 * count;
    let length = random.pick(&[right, right, right, right + 1, right - 1, any]);
    let needed = 8 * (count + 2);
    let out = random.pick(&[needed, needed, needed, needed - 1, needed + 8, 0]);
    (random.byte(), random.bytes(length), out)
}
