//! TAG items: management and streams of any values, and strangers to be passed over.

use super::frames::{entry, fct, lengths, shape, time, Shape};
use super::Random;
use crate::frame::{fic_part, ficl, read, stream_part, Stream, Timestamp, NO_TIME, STATUS};

const MANAGEMENT: [u8; 4] = *b"deti";

/// What the items of a packet say, as a frame has it.
#[derive(Clone, Debug, PartialEq, Eq)]
pub struct Values {
    pub status: u8,
    pub fct: u8,
    pub fp: u8,
    pub mid: u8,
    pub mnsc: u16,
    pub rfu: u16,
    pub rfa: u8,
    pub time: Timestamp,
    /// Where FICF is 1.
    pub fic: Option<Vec<u8>>,
    /// In the order of their numbers. An STL is what the bytes give, as far as it fits.
    pub streams: Vec<(Stream, Vec<u8>)>,
}

impl Values {
    /// What a frame that reading accepts has to say.
    pub fn of(frame: &[u8]) -> Result<Values, u8> {
        let reading = read(frame)?;
        let header = reading.header;
        let part = |index| stream_part(frame, index).map(|part| frame[part].to_vec());
        let table = reading.table.iter().take(usize::from(header.nst));
        let streams = table
            .enumerate()
            .map(|(index, &stream)| Ok((stream, part(index)?)));
        Ok(Values {
            status: STATUS[usize::from(header.level)],
            fct: header.fct,
            fp: header.fp,
            mid: header.mid,
            mnsc: header.mnsc,
            rfu: header.rfu,
            rfa: header.rfa,
            time: header.timestamp,
            fic: header.ficf.then_some(frame[fic_part(frame)?].to_vec()),
            streams: streams.collect::<Result<_, u8>>()?,
        })
    }

    /// Values of a frame of any shape. Reserved bits are often all ones, for which no field is needed.
    pub fn valid(random: &mut Random) -> Values {
        let Shape {
            ficf,
            mid,
            count,
            most,
        } = shape(random);
        let few = most.min(30);
        let total = random.pick(&[0, 1.min(most), few, few, few, most / 2, most]);
        let (rfu, rfa) = (random.number() as u16, random.byte());
        Values {
            status: random.pick(&STATUS),
            fct: fct(random),
            fp: random.below(8) as u8,
            mid,
            mnsc: random.number() as u16,
            rfu: random.pick(&[0xFFFF, 0xFFFF, 0, rfu]),
            rfa: random.pick(&[0xFF, 0xFF, 0, rfa]),
            time: Timestamp::of(time(random)),
            fic: ficf.then(|| random.bytes(4 * ficl(ficf, mid))),
            streams: streams(lengths(random, count, total), random),
        }
    }

    /// A stream of one of the lengths; there is one more if there was none.
    pub fn lengthen(&mut self, stls: &[usize], random: &mut Random) {
        if self.streams.is_empty() {
            self.streams = streams(vec![0], random);
        }
        let index = random.below(self.streams.len());
        let (stream, bytes) = &mut self.streams[index];
        let stl = random.pick(stls);
        stream.stl = stl as u16;
        *bytes = random.bytes(8 * stl);
    }

    /// The items, management first. Fields that may be missing now and then are there all the same.
    pub fn items(&self, random: &mut Random) -> Vec<Item> {
        let atst = self.time.number() != NO_TIME || random.one_in(2);
        let rfud = (self.rfu, self.rfa) != (0xFFFF, 0xFF) || random.one_in(2);
        let numbered = self.streams.iter().zip(1..);
        let mut items = vec![management(self, atst, rfud, random)];
        items.extend(numbered.map(|((entry, bytes), number)| stream(number, entry, bytes, random)));
        items
    }
}

pub fn streams(stls: Vec<u16>, random: &mut Random) -> Vec<(Stream, Vec<u8>)> {
    let stls = stls.into_iter();
    stls.map(|stl| (entry(random, stl), random.bytes(8 * usize::from(stl))))
        .collect()
}

/// An item, and the length in bits that is stated of it.
#[derive(Clone)]
pub struct Item {
    pub name: [u8; 4],
    pub bits: u32,
    pub value: Vec<u8>,
}

impl Item {
    fn new(name: [u8; 4], value: Vec<u8>) -> Item {
        let bits = 8 * value.len() as u32;
        Item { name, bits, value }
    }

    pub fn bytes(&self) -> Vec<u8> {
        [&self.name[..], &self.bits.to_be_bytes(), &self.value].concat()
    }

    pub fn is_management(&self) -> bool {
        self.name == MANAGEMENT
    }

    pub fn is_stream(&self) -> bool {
        self.name.starts_with(b"est") && (1..=64).contains(&self.name[3])
    }

    fn resize(&mut self, length: usize, random: &mut Random) {
        self.value.resize(length, random.byte());
        self.bits = 8 * length as u32;
    }

    /// A stream item too short for its header, or whose data are no multiple of eight bytes.
    pub fn spoil_stream(&mut self, short: bool, random: &mut Random) {
        let length = match short {
            true => random.below(3),
            false => self.value.len() + random.within(1, 7),
        };
        self.resize(length, random);
    }

    /// A management item of another length, or with other flags or MID than its length calls for.
    pub fn spoil_management(&mut self, flags: bool, random: &mut Random) {
        if flags && self.value.len() > 3 {
            match random.below(4) {
                // FIC data of the other length, unless there are none.
                3 => self.value[3] ^= random.pick(&[0x40, 0x80, 0xC0]),
                bit => self.value[0] ^= 0x80 >> bit,
            }
        } else {
            let length = self.value.len();
            let (less, any) = (length.saturating_sub(1), random.below(length + 12));
            let length = random.pick(&[0, 5, 6, less, length + 1, length + 3, any]);
            self.resize(length, random);
        }
    }
}

/// FCTH, UTCO, Seconds, rfa and rfu are anything: they have no place in the frame.
fn management(values: &Values, atst: bool, rfud: bool, random: &mut Random) -> Item {
    let flags = u8::from(atst) << 7 | u8::from(values.fic.is_some()) << 6 | u8::from(rfud) << 5;
    let mut value = vec![flags | random.below(32) as u8, values.fct, values.status];
    value.push(values.mid << 6 | values.fp << 3 | random.below(8) as u8);
    value.extend(values.mnsc.to_be_bytes());
    if atst {
        value.extend(random.bytes(5));
        value.extend(&values.time.number().to_be_bytes()[1..]);
    }
    value.extend(values.fic.iter().flatten());
    if rfud {
        value.extend(values.rfu.to_be_bytes());
        value.push(values.rfa);
    }
    Item::new(MANAGEMENT, value)
}

/// The two bits behind TPL are anything.
pub fn stream(number: u8, entry: &Stream, bytes: &[u8], random: &mut Random) -> Item {
    let head = (u16::from(entry.scid) << 10 | entry.sad).to_be_bytes();
    let tpl = entry.tpl << 2 | random.below(4) as u8;
    let name = [b'e', b's', b't', number];
    Item::new(name, [&head[..], &[tpl], bytes].concat())
}

/// An item to be passed over: one of the standard's others, a stream number outside 1 to 64, a name that nearly fits, or any. Its bytes may look like items.
pub fn stranger(random: &mut Random) -> Item {
    let any = random.bytes(4);
    let flipped = random.pick(&[MANAGEMENT, *b"est\x01"]);
    let outside = [
        b'e',
        b's',
        b't',
        random.pick(&[0, 65, 66, 128, 129, 192, 255]),
    ];
    let name = match random.below(5) {
        0 => random.pick(&[
            *b"*ptr",
            *b"info",
            *b"nasc",
            *b"frpd",
            *b"dsti",
            *b"ss\0\x01",
        ]),
        1 | 2 => outside,
        3 => nearly(flipped, random),
        _ => [any[0], any[1], any[2], any[3]],
    };
    let length = random.pick(&[0, 0, 1, 2, 3, 7, 8, 11, 24, 40]);
    let value = match random.below(4) {
        0 => Item::new(MANAGEMENT, vec![0; 6]).bytes(),
        1 => stream(1, &Stream::default(), &[0; 8], random).bytes(),
        _ => random.bytes(length),
    };
    Item::new(name, value)
}

/// A name that differs in one of its first three bytes.
fn nearly(mut name: [u8; 4], random: &mut Random) -> [u8; 4] {
    name[random.below(3)] ^= random.pick(&[0x20, 0x01, 0x80, 0xFF]);
    name
}
