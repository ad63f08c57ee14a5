//! The proved exports, called as C calls them, and the bytes they take and give.

use crate::frame::{Reading, Stream, Table, Timestamp, NULL_TRANSMISSION};
use crate::signalling;
use crate::walk::{Item, State};
use crate::why::Reason;
use crate::writing::Fields;

pub const ANSWER: usize = 406;
pub const PART: usize = 4;
pub const FIELDS: usize = 401;
/// A walk's bytes are its state's and behind them its item's, the kind first.
pub const STATE: usize = 11;
pub const ITEM: usize = 10;
/// .. and a frame's FCT and level.
pub const TOLD: usize = ITEM + 2;
pub const WALK: usize = STATE + TOLD;
pub const KIND: usize = STATE;
pub const SIGNAL: usize = 24;
pub const LOOKS: usize = 8;
pub const WHY: usize = 10;
pub const COLLISION: usize = 3;

/// The kinds of item.
pub const FRAME_ITEM: u8 = 0;
pub const LOST_ITEM: u8 = 1;
pub const IDLE_ITEM: u8 = 2;
pub const DONE_ITEM: u8 = 3;
/// Of a live line: more bytes are wanted.
pub const MORE_ITEM: u8 = 4;

#[link(name = "controller", kind = "static")]
#[link(name = "boot", kind = "static")]
#[link(name = "entries", kind = "static")]
#[link(name = "living", kind = "static")]
#[link(name = "reasons", kind = "static")]
#[link(name = "relays", kind = "static")]
#[link(name = "sizing", kind = "static")]
#[link(name = "profiles", kind = "static")]
#[link(name = "signals", kind = "static")]
#[link(name = "walks", kind = "static")]
extern "C" {
    fn spindlewren_read(
        frame: *const u8,
        frame_len: usize,
        answer: *mut u8,
        answer_len: usize,
    ) -> u8;
    fn spindlewren_fic(
        frame: *const u8,
        frame_len: usize,
        answer: *mut u8,
        answer_len: usize,
    ) -> u8;
    fn spindlewren_stream(
        frame: *const u8,
        frame_len: usize,
        index: usize,
        answer: *mut u8,
        answer_len: usize,
    ) -> u8;
    fn spindlewren_begin(limit: usize, walk: *mut u8, walk_len: usize) -> u8;
    fn spindlewren_step(record: *const u8, record_len: usize, walk: *mut u8, walk_len: usize)
        -> u8;
    fn spindlewren_live(
        window: *const u8,
        window_len: usize,
        more: u8,
        walk: *mut u8,
        walk_len: usize,
    ) -> u8;
    fn spindlewren_sum(bytes: *const u8, bytes_len: usize) -> u16;
    fn spindlewren_boot_sum(bytes: *const u8, bytes_len: usize) -> u16;
    fn spindlewren_write(
        fields: *const u8,
        fields_len: usize,
        main: *const u8,
        main_len: usize,
        out: *mut u8,
        out_len: usize,
    ) -> u8;
    fn spindlewren_relay(frame: *const u8, frame_len: usize, out: *mut u8, out_len: usize) -> u8;
    fn spindlewren_profile(frame: *const u8, frame_len: usize) -> u8;
    fn spindlewren_collision(
        frame: *const u8,
        frame_len: usize,
        collision: *mut u8,
        collision_len: usize,
    ) -> u8;
    fn spindlewren_nth(
        record: *const u8,
        record_len: usize,
        limit: usize,
        n: usize,
        answer: *mut u8,
        answer_len: usize,
    ) -> u8;
    fn spindlewren_looks(
        record: *const u8,
        record_len: usize,
        limit: usize,
        answer: *mut u8,
        answer_len: usize,
    ) -> u8;
    fn spindlewren_why(
        record: *const u8,
        record_len: usize,
        limit: usize,
        place: usize,
        answer: *mut u8,
        answer_len: usize,
    ) -> u8;
    fn spindlewren_signal_step(
        fp: u8,
        mnsc: u16,
        signal: *mut u8,
        signal_len: usize,
        bytes: *mut u8,
        bytes_len: usize,
    ) -> u8;
    fn spindlewren_signal_write(
        kind: u8,
        message: *const u8,
        message_len: usize,
        out: *mut u8,
        out_len: usize,
    ) -> u8;
}

// SAFETY, for each call below: pointer and length are of one slice, and a mutable slice overlaps no other.

pub fn read(frame: &[u8], answer: &mut [u8]) -> u8 {
    unsafe {
        spindlewren_read(
            frame.as_ptr(),
            frame.len(),
            answer.as_mut_ptr(),
            answer.len(),
        )
    }
}

pub fn fic(frame: &[u8], answer: &mut [u8]) -> u8 {
    unsafe {
        spindlewren_fic(
            frame.as_ptr(),
            frame.len(),
            answer.as_mut_ptr(),
            answer.len(),
        )
    }
}

pub fn stream(frame: &[u8], index: usize, answer: &mut [u8]) -> u8 {
    unsafe {
        spindlewren_stream(
            frame.as_ptr(),
            frame.len(),
            index,
            answer.as_mut_ptr(),
            answer.len(),
        )
    }
}

pub fn begin(limit: usize, walk: &mut [u8]) -> u8 {
    unsafe { spindlewren_begin(limit, walk.as_mut_ptr(), walk.len()) }
}

pub fn step(record: &[u8], walk: &mut [u8]) -> u8 {
    unsafe { spindlewren_step(record.as_ptr(), record.len(), walk.as_mut_ptr(), walk.len()) }
}

pub fn live(window: &[u8], more: u8, walk: &mut [u8]) -> u8 {
    unsafe {
        spindlewren_live(
            window.as_ptr(),
            window.len(),
            more,
            walk.as_mut_ptr(),
            walk.len(),
        )
    }
}

pub fn looks(record: &[u8], limit: usize, answer: &mut [u8]) -> u8 {
    unsafe {
        spindlewren_looks(
            record.as_ptr(),
            record.len(),
            limit,
            answer.as_mut_ptr(),
            answer.len(),
        )
    }
}

pub fn sum(bytes: &[u8]) -> u16 {
    unsafe { spindlewren_sum(bytes.as_ptr(), bytes.len()) }
}

/// The boot loader's, which is the small one.
pub fn boot_sum(bytes: &[u8]) -> u16 {
    unsafe { spindlewren_boot_sum(bytes.as_ptr(), bytes.len()) }
}

pub fn write(fields: &[u8], main: &[u8], out: &mut [u8]) -> u8 {
    unsafe {
        spindlewren_write(
            fields.as_ptr(),
            fields.len(),
            main.as_ptr(),
            main.len(),
            out.as_mut_ptr(),
            out.len(),
        )
    }
}

pub fn relay(frame: &[u8], out: &mut [u8]) -> u8 {
    unsafe { spindlewren_relay(frame.as_ptr(), frame.len(), out.as_mut_ptr(), out.len()) }
}

pub fn profile(frame: &[u8]) -> u8 {
    unsafe { spindlewren_profile(frame.as_ptr(), frame.len()) }
}

pub fn collision(frame: &[u8], out: &mut [u8]) -> u8 {
    unsafe { spindlewren_collision(frame.as_ptr(), frame.len(), out.as_mut_ptr(), out.len()) }
}

pub fn nth(record: &[u8], limit: usize, n: usize, answer: &mut [u8]) -> u8 {
    unsafe {
        spindlewren_nth(
            record.as_ptr(),
            record.len(),
            limit,
            n,
            answer.as_mut_ptr(),
            answer.len(),
        )
    }
}

pub fn why(record: &[u8], limit: usize, place: usize, answer: &mut [u8]) -> u8 {
    unsafe {
        spindlewren_why(
            record.as_ptr(),
            record.len(),
            limit,
            place,
            answer.as_mut_ptr(),
            answer.len(),
        )
    }
}

/// The reason's number, the refusal number it gives, and the place of the item before.
pub fn why_bytes(reason: Reason) -> Vec<u8> {
    let (number, refusal, before) = match reason {
        Reason::HandedOut => (0, 0, 0),
        Reason::Lost(refusal) => (1, refusal, 0),
        Reason::Refused(refusal) => (2, refusal, 0),
        Reason::NotStanding => (3, 0, 0),
        Reason::SameSync => (4, 0, 0),
        Reason::SteppedOver(before) => (5, 0, before),
    };
    [&[number, refusal][..], &(before as u64).to_be_bytes()].concat()
}

pub fn signal_step(fp: u8, mnsc: u16, signal: &mut [u8], bytes: &mut [u8]) -> u8 {
    unsafe {
        spindlewren_signal_step(
            fp,
            mnsc,
            signal.as_mut_ptr(),
            signal.len(),
            bytes.as_mut_ptr(),
            bytes.len(),
        )
    }
}

pub fn signal_write(kind: u8, message: &[u8], out: &mut [u8]) -> u8 {
    unsafe {
        spindlewren_signal_write(
            kind,
            message.as_ptr(),
            message.len(),
            out.as_mut_ptr(),
            out.len(),
        )
    }
}

/// The item in the last ten of the bytes that a signalling step leaves; a message's bytes are the buffer's first.
pub fn signal_item(signal: &[u8], buffer: &[u8]) -> Option<signalling::Item> {
    let (kind, number, length) = (signal[14], signal[15], place_of(&signal[16..]));
    match kind {
        0 => None,
        1 => Some(signalling::Item::Message(number, buffer[..length].to_vec())),
        _ => Some(signalling::Item::Drop(number)),
    }
}

pub fn answer_bytes(reading: &Reading) -> Vec<u8> {
    let header = &reading.header;
    let mut bytes = vec![
        header.level,
        u8::from(header.fsync1),
        header.fct,
        u8::from(header.ficf),
        header.nst,
        header.fp,
        header.mid,
    ];
    put(&mut bytes, &[header.fl, header.mnsc, header.rfu]);
    let (sort, number) = timestamp(header.timestamp);
    bytes.extend([header.rfa, sort]);
    bytes.extend(&number.to_be_bytes()[1..]);
    put(&mut bytes, &[header.sent, header.worked]);
    put_table(&mut bytes, &reading.table);
    bytes
}

pub fn fields_bytes(fields: &Fields) -> Vec<u8> {
    let mut bytes = vec![
        fields.level,
        u8::from(fields.fsync1),
        fields.fct,
        u8::from(fields.ficf),
        fields.nst,
        fields.fp,
        fields.mid,
    ];
    put(&mut bytes, &[fields.mnsc, fields.rfu]);
    let (sort, number) = timestamp(fields.timestamp);
    bytes.extend([fields.rfa, sort]);
    bytes.extend(number.to_be_bytes());
    put_table(&mut bytes, &fields.table);
    bytes
}

/// The fields that an answer gives and writing takes: all but FL and the two sums, and the timestamp's number in four bytes.
pub fn fields_of_answer(answer: &[u8]) -> Vec<u8> {
    [
        &answer[..7],
        &answer[9..15],
        &[0],
        &answer[15..18],
        &answer[22..],
    ]
    .concat()
}

/// Place and length of a part.
pub fn part_bytes(part: std::ops::Range<usize>) -> Vec<u8> {
    let mut bytes = Vec::new();
    put(&mut bytes, &[part.start as u16, part.len() as u16]);
    bytes
}

pub fn state_bytes(state: State) -> Vec<u8> {
    let mut bytes = (state.place as u64).to_be_bytes().to_vec();
    bytes.extend([state.misses as u8, u8::from(state.lock), state.limit as u8]);
    bytes
}

/// A walk's bytes before its first step, with no item yet.
pub fn begun_bytes(state: State) -> Vec<u8> {
    [state_bytes(state), vec![0; TOLD]].concat()
}

pub fn walk_bytes(item: &Item, state: State) -> Vec<u8> {
    [state_bytes(state), told_bytes(item)].concat()
}

/// What a step tells: the item, and a frame's FCT and level.
pub fn told_bytes(item: &Item) -> Vec<u8> {
    let mut bytes = item_bytes(item);
    bytes.extend(match item {
        Item::Frame(_, reading) => [reading.header.fct, reading.header.level],
        _ => [0, 0],
    });
    bytes
}

pub fn item_bytes(item: &Item) -> Vec<u8> {
    let (kind, number, place) = match item {
        Item::Frame(place, _) => (FRAME_ITEM, 0, *place),
        Item::Lost(place, number) => (LOST_ITEM, *number, *place),
        Item::Idle(place) => (IDLE_ITEM, NULL_TRANSMISSION, *place),
        Item::Done(place) => (DONE_ITEM, 0, *place),
    };
    let mut bytes = vec![kind, number];
    bytes.extend((place as u64).to_be_bytes());
    bytes
}

/// A step's own state, from the first of its bytes.
pub fn state_of(walk: &[u8]) -> State {
    State {
        place: place_of(&walk[..8]),
        misses: usize::from(walk[8]),
        lock: walk[9] == 1,
        limit: usize::from(walk[10]),
    }
}

/// The kind and the place of the item behind a state.
pub fn item_of(walk: &[u8]) -> (u8, usize) {
    (walk[KIND], place_of(&walk[KIND + 2..STATE + ITEM]))
}

pub fn place_of(bytes: &[u8]) -> usize {
    bytes
        .iter()
        .fold(0, |place, &byte| place << 8 | usize::from(byte))
}

fn timestamp(timestamp: Timestamp) -> (u8, u32) {
    let sort = match timestamp {
        Timestamp::None => 0,
        Timestamp::Time(_) => 1,
        Timestamp::Reserved(_) => 2,
    };
    (sort, timestamp.number())
}

fn put_table(bytes: &mut Vec<u8>, table: &Table) {
    for &Stream {
        scid,
        sad,
        tpl,
        stl,
    } in table
    {
        bytes.push(scid);
        put(bytes, &[sad]);
        bytes.push(tpl);
        put(bytes, &[stl]);
    }
}

fn put(bytes: &mut Vec<u8>, numbers: &[u16]) {
    bytes.extend(numbers.iter().flat_map(|number| number.to_be_bytes()));
}
