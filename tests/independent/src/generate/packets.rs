//! EDI packets: the TAG items of a frame in any order, strangers in between, and faults alone and together.

use super::frames::{entry, lengths, reaching};
use super::tags::{stranger, stream, streams, Item, Values};
use super::Random;
use crate::frame::{ficl, FRAME, MOST_STREAMS};

/// What is wrong or unusual with a packet. Faults are made in this order.
#[derive(Clone, Copy, Debug, PartialEq, Eq, PartialOrd, Ord)]
pub enum Fault {
    LongFrame,
    LongStream,
    WideStl,
    HighFct,
    Status,
    Gap,
    StreamTwice,
    NoManagement,
    ManagementTwice,
    ManagementLength,
    ManagementFlags,
    ShortStream,
    NoMultiple,
    NotBytes,
    PastEnd,
    EightAtEnd,
    Bit,
    Cut,
    OutLength,
}
use Fault::*;

#[rustfmt::skip]
pub const FAULTS: [Fault; 19] = [
    LongFrame, LongStream, WideStl, HighFct, Status, Gap, StreamTwice, NoManagement,
    ManagementTwice, ManagementLength, ManagementFlags, ShortStream, NoMultiple, NotBytes,
    PastEnd, EightAtEnd, Bit, Cut, OutLength,
];

pub struct Packet {
    pub faults: Vec<Fault>,
    pub values: Values,
    pub bytes: Vec<u8>,
    pub out_length: usize,
}

impl Packet {
    /// Whether the packet, if it is not refused, says what the values say.
    pub fn says_values(&self) -> bool {
        let unchanged = [
            LongFrame, LongStream, WideStl, HighFct, Status, EightAtEnd, OutLength,
        ];
        self.faults.iter().all(|fault| unchanged.contains(fault))
    }
}

/// The faults of the values themselves.
fn spoil(values: &mut Values, fault: Fault, random: &mut Random) {
    match fault {
        LongFrame => {
            let ficl = ficl(values.fic.is_some(), values.mid);
            let fl = random.pick(&[1533, 1533, 1534, 2047, 2048, 2048 + 200]);
            let (count, total) = reaching(fl, ficl, random);
            values.streams = streams(lengths(random, count, total), random);
        }
        LongStream => values.lengthen(&[684, 685, 685, 686, 1023], random),
        WideStl => values.lengthen(&[1023, 1024, 1024, 1025, 1024 + 5, 2048, 65_536], random),
        HighFct => values.fct = random.pick(&[249, 250, 250, 251, 255]),
        Status => values.status = random.pick(&[0x01, 0x0E, 0x1F, 0xF1, 0x55, 0xFE]),
        _ => {}
    }
}

pub fn packet_case(random: &mut Random) -> Packet {
    let faults = random.faults(&FAULTS);
    let mut values = Values::valid(random);
    for &fault in &faults {
        spoil(&mut values, fault, random);
    }
    let mut items = values.items(random);
    for &fault in &faults {
        spoil_items(&mut items, fault, random);
    }
    let items = mixed(items, random);
    let padding = at_end(&faults, random);
    let mut bytes = laid_out(items, &faults, &padding, random);
    for &fault in &faults {
        damage(&mut bytes, fault, random);
    }
    let out_length = if faults.contains(&OutLength) {
        random.pick(&[0, 1, FRAME - 1, FRAME + 1, 2 * FRAME])
    } else {
        FRAME
    };
    Packet {
        faults,
        values,
        bytes,
        out_length,
    }
}

/// The items in any order, with strangers between them and up to seven bytes at the end.
pub fn packed(items: Vec<Item>, random: &mut Random) -> Vec<u8> {
    let items = mixed(items, random);
    let padding = at_end(&[], random);
    laid_out(items, &[], &padding, random)
}

/// In order, in any other, or streams backwards, and strangers in between.
fn mixed(mut items: Vec<Item>, random: &mut Random) -> Vec<Item> {
    match random.below(4) {
        0 => {}
        1 => items.reverse(),
        _ => {
            for last in (1..items.len()).rev() {
                items.swap(last, random.below(last + 1));
            }
        }
    }
    for _ in 0..random.pick(&[0, 0, 1, 2, 5]) {
        let at = random.within(0, items.len());
        items.insert(at, stranger(random));
    }
    items
}

/// Fewer than eight bytes at the end are no item, also where they are the first of one.
fn at_end(faults: &[Fault], random: &mut Random) -> Vec<u8> {
    if faults.contains(&EightAtEnd) {
        // An empty item without a name, one that runs past the packet, or one of a single bit.
        let bits = random.pick(&[[0; 4], [0xFF; 4], [0, 0, 0, 8], [0, 0, 0, 1]]);
        return [&[0; 4][..], &bits].concat();
    }
    let any = random.bytes(8);
    let begun = random.pick(&[
        *b"deti\0\0\0\0",
        *b"est\x01\0\0\0\x18",
        *b"\0\0\0\0\0\0\0\0",
    ]);
    let bytes: &[u8] = if random.one_in(2) { &any } else { &begun };
    bytes[..random.pick(&[0, 0, 1, 3, 4, 6, 7])].to_vec()
}

/// The faults of the items.
fn spoil_items(items: &mut Vec<Item>, fault: Fault, random: &mut Random) {
    match fault {
        Gap => {
            // A number is left out below the highest, or there is only a high one.
            let numbers: Vec<usize> = (0..items.len())
                .filter(|&at| items[at].is_stream())
                .collect();
            match numbers[..] {
                [ref gone @ .., _] if !gone.is_empty() => {
                    items.remove(random.pick(gone));
                }
                _ => {
                    let number = random.within(numbers.len() + 2, MOST_STREAMS) as u8;
                    items.push(stream(number, &entry(random, 0), &[], random));
                }
            }
        }
        StreamTwice => {
            let number = random.within(1, items.len()) as u8;
            let again = stream(number, &entry(random, 1), &random.bytes(8), random);
            let held = items.iter().find(|item| item.name == again.name);
            let same = held.filter(|_| random.one_in(2)).cloned();
            items.push(same.unwrap_or(again));
        }
        NoManagement => items.retain(|item| !item.is_management()),
        ManagementTwice => {
            let other = Values::valid(random).items(random).swap_remove(0);
            let held = items.iter().find(|item| item.is_management());
            let same = held.filter(|_| random.one_in(2)).cloned();
            items.push(same.unwrap_or(other));
        }
        ManagementLength | ManagementFlags => {
            for item in items.iter_mut().filter(|item| item.is_management()) {
                item.spoil_management(fault == ManagementFlags, random);
            }
        }
        ShortStream | NoMultiple => {
            let mut streams: Vec<&mut Item> =
                items.iter_mut().filter(|item| item.is_stream()).collect();
            if !streams.is_empty() {
                let index = random.below(streams.len());
                streams[index].spoil_stream(fault == ShortStream, random);
            }
        }
        _ => {}
    }
}

/// The packet's bytes, with the faults of stated lengths, which may be a stranger's.
fn laid_out(
    mut items: Vec<Item>,
    faults: &[Fault],
    padding: &[u8],
    random: &mut Random,
) -> Vec<u8> {
    if faults.contains(&NotBytes) && !items.is_empty() {
        let index = random.below(items.len());
        items[index].bits += random.pick(&[1, 1, 2, 4, 7]);
    }
    if faults.contains(&PastEnd) {
        past_end(&mut items, padding.len() as u32, random);
    }
    let mut bytes: Vec<u8> = items.iter().flat_map(Item::bytes).collect();
    bytes.extend(padding);
    bytes
}

/// The last item takes the bytes at the end and one more, or just these; or any item is far too long.
fn past_end(items: &mut [Item], padding: u32, random: &mut Random) {
    if items.is_empty() {
        return;
    }
    if random.one_in(2) {
        let last = items.len() - 1;
        items[last].bits += 8 * (padding + random.pick(&[0, 1, 1, 2]));
    } else {
        let index = random.below(items.len());
        items[index].bits = random.pick(&[0xFFFF_FFF8, 0x8000_0000, 0x7FFF_FFF8, 0x0100_0000]);
    }
}

/// The faults of the bytes, more often near the beginning of an item.
fn damage(bytes: &mut Vec<u8>, fault: Fault, random: &mut Random) {
    if bytes.is_empty() {
        return;
    }
    let any = random.below(bytes.len());
    let head = random.below(bytes.len().min(24));
    match fault {
        Bit => bytes[random.pick(&[any, head])] ^= 1 << random.below(8),
        Cut => bytes.truncate(random.pick(&[any, head, bytes.len() - 1])),
        _ => {}
    }
}
