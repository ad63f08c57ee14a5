//! Signalling groups from the MNSC bytes of consecutive frames, and messages from asynchronous groups (clause 5.5.1, annex A.3).

use crate::sum::sum;

pub type Group = [u8; 8];
/// Bytes of the longest message: four of its start, six of each of 255 continuations, four of its end.
pub const MOST_BYTES: usize = 4 + 6 * 255 + 4;

/// The refusal numbers of a phase and of a group out of turn, of a wrong closing sum, and of a length that the groups cannot carry.
const PHASE: u8 = 24;
const TURN: u8 = 25;
const SUM: u8 = 26;
const LENGTH: u8 = 36;

/// First bytes of the groups, their reserved bits zero (table 23).
const START: u8 = 0b1100_0000;
const CONTINUATION: u8 = 0b1100_0011;
const END: u8 = 0b1100_1100;

/// What a frame brings.
#[derive(Clone, Copy, Debug, PartialEq, Eq)]
pub struct Frame {
    pub fp: u8,
    pub mnsc: u16,
}

#[derive(Clone, Debug, PartialEq, Eq)]
pub enum Item {
    /// Type and message bytes.
    Message(u8, Vec<u8>),
    /// A group or message dropped, with the number.
    Drop(u8),
}

/// An item, and the number of the frame that gave it.
pub type Told = (usize, Item);

/// What the frames give, one behind the other from the beginning.
pub fn items(frames: &[Frame]) -> Vec<Told> {
    let mut gathered = Gathered::Pairs(Vec::new());
    let mut open = Vec::new();
    let mut item = |frame: &Frame| match gathered.take(frame) {
        Ok(whole) => whole.and_then(|group| strung(&mut open, group)),
        Err(number) => Some(Item::Drop(number)),
    };
    let told = |(n, frame)| Some((n, item(frame)?));
    frames.iter().enumerate().filter_map(told).collect()
}

/// The byte pairs of a group so far; or, after a drop, nothing until a phase 0.
enum Gathered {
    Pairs(Vec<u8>),
    Waiting,
}

impl Gathered {
    /// The group that the frame makes whole, or the number of a drop.
    fn take(&mut self, frame: &Frame) -> Result<Option<Group>, u8> {
        let phase = usize::from(frame.fp % 4);
        let mut out_of_turn = false;
        if let Gathered::Pairs(pairs) = self {
            out_of_turn = pairs.len() != 2 * phase;
        }
        if phase == 0 {
            *self = Gathered::Pairs(Vec::new());
        } else if out_of_turn {
            *self = Gathered::Waiting;
        }
        let mut whole = None;
        if let Gathered::Pairs(pairs) = self {
            pairs.extend(frame.mnsc.to_be_bytes());
            whole = Group::try_from(&pairs[..]).ok();
        }
        if whole.is_some() {
            *self = Gathered::Pairs(Vec::new());
        }
        match out_of_turn {
            true => Err(PHASE),
            false => Ok(whole),
        }
    }
}

/// Strings one group more onto those of the open message, which are its start and continuations; there are none if no message is open.
fn strung(open: &mut Vec<Group>, group: Group) -> Option<Item> {
    let due = open
        .first()
        .map(|start| usize::from(start[3]) + 1 - open.len());
    // The bits that are reserved are not looked at.
    match (group[0] & 0b1100_1111, due) {
        (START, _) => {
            *open = vec![group];
            due.map(|_| Item::Drop(TURN))
        }
        (CONTINUATION, Some(1..)) => {
            open.push(group);
            None
        }
        (END, Some(0)) => Some(closed(std::mem::take(open), group)),
        (CONTINUATION | END, _) => {
            open.clear();
            Some(Item::Drop(TURN))
        }
        _ => None,
    }
}

/// The message of its groups, unless the closing sum is wrong.
fn closed(groups: Vec<Group>, end: Group) -> Item {
    let before: Vec<u8> = groups.concat();
    let summed = [&before[..], &end[..6]].concat();
    if sum(&summed).to_be_bytes() != end[6..] {
        return Item::Drop(SUM);
    }
    let (start, continuations) = groups
        .split_first()
        .expect("a message begins with its start");
    let mut bytes = start[4..].to_vec();
    bytes.extend(continuations.iter().flat_map(|group| &group[2..]));
    bytes.extend(&end[2..6]);
    Item::Message(start[2], bytes)
}

/// The way back: the byte pairs that carry a message, into an output of so many bytes.
pub fn send(kind: u8, message: &[u8], out: usize) -> Result<Vec<u8>, u8> {
    let split = message.split_first_chunk::<4>();
    let (start, rest) = split.ok_or(LENGTH)?;
    let (middle, end) = rest.split_last_chunk::<4>().ok_or(LENGTH)?;
    let continuations = middle.chunks_exact(6);
    if !continuations.remainder().is_empty() {
        return Err(LENGTH);
    }
    let number = u8::try_from(continuations.len()).map_err(|_| LENGTH)?;
    let mut bytes = [&[START, 0, kind, number][..], start].concat();
    for part in continuations {
        bytes.extend([CONTINUATION, 0]);
        bytes.extend(part);
    }
    bytes.extend([END, 0]);
    bytes.extend(end);
    bytes.extend(sum(&bytes).to_be_bytes());
    match bytes.len() == out {
        true => Ok(bytes),
        false => Err(1),
    }
}

/// The frames that carry these byte pairs, from a phase 0 on.
pub fn frames(bytes: &[u8]) -> Vec<Frame> {
    let pairs = bytes.chunks_exact(2).zip((0..8).cycle());
    pairs
        .map(|(pair, fp)| Frame {
            fp,
            mnsc: u16::from_be_bytes([pair[0], pair[1]]),
        })
        .collect()
}
