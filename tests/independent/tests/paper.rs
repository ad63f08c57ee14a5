//! The paper's figures, run against this implementation.

use independent::frame::{
    fic_part, judge, main_stream_part, read, stream_part, Stream, Timestamp, EMPTY, FRAME, STATUS,
    SYNC,
};
use independent::listing::listing;
use independent::relay::relay;
use independent::sum::sum;
use independent::walk::{nth, step, Item, State};
use independent::writing::{write, Fields};

/// NST 0, FICF 0 and nothing unusual.
fn bare() -> Fields {
    Fields {
        level: 0,
        fsync1: false,
        fct: 0,
        ficf: false,
        nst: 0,
        fp: 0,
        mid: 1,
        mnsc: 0,
        rfu: 0xFFFF,
        rfa: 0xFF,
        timestamp: Timestamp::None,
        table: EMPTY,
    }
}

fn with_lengths(fields: Fields, lengths: &[u16]) -> Fields {
    let mut fields = fields;
    fields.nst = lengths.len() as u8;
    for (stream, &stl) in fields.table.iter_mut().zip(lengths) {
        stream.stl = stl;
    }
    fields
}

fn written(fields: &Fields) -> Result<Vec<u8>, u8> {
    let mut out = vec![0; FRAME];
    match write(fields, &vec![0x5A; fields.main_length()], &mut out) {
        0 => Ok(out),
        number => Err(number),
    }
}

/// The frame with its header sum made right again.
fn resummed(mut frame: Vec<u8>) -> Vec<u8> {
    let end = 10 + usize::from(frame[5] & 0x7F) * 4;
    let right = sum(&frame[4..end]);
    frame[end..end + 2].copy_from_slice(&right.to_be_bytes());
    frame
}

/// Frames with FCT from 10 on, sync words alternating.
fn frames(count: u8) -> Vec<u8> {
    let frame = |n: u8| {
        let fields = Fields {
            fct: 10 + n,
            fsync1: n % 2 == 1,
            ..bare()
        };
        written(&fields).unwrap()
    };
    (0..count).flat_map(frame).collect()
}

fn record() -> Vec<u8> {
    frames(4)
}

/// A walk begun with the limit of the listing.
fn begun() -> State {
    State::begin(3).unwrap()
}

#[test]
fn smallest_frames() {
    let frame = written(&bare()).unwrap();
    assert_eq!(read(&frame).unwrap().header.fl, 1);
    assert!(frame[19] == 0xFF && frame[20..].iter().all(|&byte| byte == 0x55));
    let fields = Fields {
        ficf: true,
        mid: 3,
        ..bare()
    };
    assert_eq!(fields.fl(), 33);
}

#[test]
fn header_and_entry_bytes() {
    let mut fields = Fields {
        fct: 249,
        ficf: true,
        nst: 1,
        fp: 5,
        mid: 2,
        ..bare()
    };
    fields.table[0] = Stream {
        scid: 1,
        sad: 54,
        tpl: 34,
        stl: 24,
    };
    let frame = written(&fields).unwrap();
    assert_eq!(
        frame[4..12],
        [0xF9, 0x81, 0xB0, 0x4A, 0x04, 0x36, 0x88, 0x18]
    );
    assert_eq!(fic_part(&frame), Ok(4 + 12..4 + 108));
    assert_eq!(stream_part(&frame, 0), Ok(4 + 108..4 + 300));
    assert_eq!(stream_part(&frame, 1), Err(13));
    assert_eq!(main_stream_part(&frame), Ok(4 + 12..4 + 300));
}

#[test]
fn wrong_main_sum_raises_the_level_to_2() {
    for (level, handed_on) in [(0, 2), (1, 2), (2, 2), (3, 3)] {
        let mut frame = written(&Fields { level, ..bare() }).unwrap();
        assert_eq!(frame[0], STATUS[usize::from(level)]);
        assert_eq!(read(&frame).unwrap().header.level, level);
        frame[12] ^= 1;
        assert_eq!(read(&frame).unwrap().header.level, handed_on);
    }
}

/// A clean frame comes out as it went in; a wrong main-stream sum comes out right, with the level raised.
#[test]
fn relayed() {
    let clean = written(&bare()).unwrap();
    let mut out = vec![0; FRAME];
    assert_eq!((relay(&clean, &mut out), &out), (0, &clean));
    let mut damaged = clean.clone();
    damaged[12] ^= 1;
    let raised = written(&Fields { level: 2, ..bare() }).unwrap();
    assert_eq!((relay(&damaged, &mut out), &out), (0, &raised));
    assert_eq!(relay(&clean, &mut out[1..]), 1);
    assert_eq!(relay(&[0; FRAME], &mut out[1..]), 2);
    assert_eq!(out, raised);
}

#[test]
fn limits() {
    let longest = written(&with_lengths(bare(), &[684, 80, 0])).unwrap();
    assert_eq!(read(&longest).unwrap().header.fl, 1532);
    assert_eq!(written(&with_lengths(bare(), &[684, 81])), Err(10));
    assert!(written(&with_lengths(bare(), &[684])).is_ok());
    assert_eq!(written(&with_lengths(bare(), &[685])), Err(8));
    let mut frame = written(&bare()).unwrap();
    frame[5] = 65;
    assert_eq!(judge(&frame), 5);
}

#[test]
fn limits_on_reading() {
    let mut longer = written(&with_lengths(bare(), &[684, 80])).unwrap();
    longer[7] += 2;
    longer[15] += 1;
    assert_eq!(judge(&longer), 6);
    assert_eq!(judge(&resummed(longer)), 10);
    let mut stream = written(&with_lengths(bare(), &[684])).unwrap();
    stream[7] += 2;
    stream[11] += 1;
    assert_eq!(judge(&resummed(stream)), 8);
}

#[test]
fn one_frame_is_done_at_place_1() {
    let frame = written(&bare()).unwrap();
    let (item, state) = step(&frame, begun());
    assert_eq!((item, state.place), (Item::Done(1), 1));
}

#[test]
fn listing_of_the_paper() {
    let mut record = record();
    record[2 * FRAME + 1] = 0;
    let lines = "place kind code level\n0 frame 10 0\n6144 frame 11 0\n\
                 12288 lost 2 -\n18432 frame 13 0\nend 24576\n";
    assert_eq!(listing(&record), lines);
    assert_eq!(listing(&vec![0; 61_441]), "too long\n");
    assert_eq!(listing(&[]), "place kind code level\nend 0\n");
}

/// A null transmission: all its other data bytes are FF too.
fn null(fsync1: bool) -> Vec<u8> {
    let mut frame = vec![0xFF; FRAME];
    frame[1..4].copy_from_slice(&SYNC[usize::from(fsync1)]);
    frame
}

/// The listing of the paper's first two frames, the periods given and the other two frames.
fn listing_around(periods: &[Vec<u8>]) -> String {
    let (before, behind) = (&record()[..2 * FRAME], &record()[2 * FRAME..]);
    listing(&[before, &periods.concat(), behind].concat())
}

#[test]
fn a_night_keeps_the_lock() {
    let night: Vec<_> = (0..5).map(|n| null(n % 2 == 1)).collect();
    let lines = "place kind code level\n0 frame 10 0\n6144 frame 11 0\n\
                 12288 idle 4 -\n18432 idle 4 -\n24576 idle 4 -\n30720 idle 4 -\n36864 idle 4 -\n\
                 43008 frame 12 0\n49152 frame 13 0\nend 55296\n";
    assert_eq!(listing_around(&night), lines);
}

/// A wrong sync word, and behind it a wrong status byte, are met by the rules before null transmission.
#[test]
fn damaged_null_transmissions_are_lost() {
    let (mut sync, mut status) = (null(false), null(true));
    sync[3] = 0xB7;
    status[0] = 0x01;
    let both = [&[0x01][..], &sync[1..]].concat();
    let lines = "place kind code level\n0 frame 10 0\n6144 frame 11 0\n\
                 12288 lost 2 -\n18432 lost 3 -\n24576 idle 4 -\n30720 lost 2 -\n\
                 36864 frame 12 0\n43008 frame 13 0\nend 49152\n";
    assert_eq!(listing_around(&[sync, status, null(false), both]), lines);
}

/// Two misses, an idle item, two misses: never three in a row.
#[test]
fn an_idle_item_clears_the_misses() {
    let lost = vec![0; FRAME];
    let periods = [&lost, &lost, &null(false), &lost, &lost].map(Clone::clone);
    let lines = "place kind code level\n0 frame 10 0\n6144 frame 11 0\n\
                 12288 lost 2 -\n18432 lost 2 -\n24576 idle 4 -\n30720 lost 2 -\n36864 lost 2 -\n\
                 43008 frame 12 0\n49152 frame 13 0\nend 55296\n";
    assert_eq!(listing_around(&periods), lines);
}

/// Behind the third miss the walk hunts, and passes over null transmissions.
#[test]
fn a_hunt_never_begins_on_a_null_transmission() {
    let lost = vec![0; FRAME];
    let periods = [&lost, &lost, &lost, &null(false), &null(true)].map(Clone::clone);
    let lines = "place kind code level\n0 frame 10 0\n6144 frame 11 0\n\
                 12288 lost 2 -\n18432 lost 2 -\n24576 lost 2 -\n\
                 43008 frame 12 0\n49152 frame 13 0\nend 55296\n";
    assert_eq!(listing_around(&periods), lines);
}

/// The first frame has a null transmission with the other sync word behind it: it is not handed out.
#[test]
fn a_null_transmission_does_not_confirm() {
    let frames = record();
    let (first, last) = (&frames[..FRAME], &frames[2 * FRAME..]);
    let hunted = [&null(true)[..], first, &null(true), last].concat();
    let lines = "place kind code level\n18432 frame 12 0\n24576 frame 13 0\nend 30720\n";
    assert_eq!(listing(&hunted), lines);
    assert_eq!(listing(&null(false)), "place kind code level\nend 1\n");
}

#[test]
fn the_last_null_transmission_is_idle_if_it_is_whole() {
    let whole = [&record()[..2 * FRAME], &null(false)].concat();
    let step_from = |bytes: &[u8]| {
        let state = State {
            place: 2 * FRAME,
            misses: 2,
            lock: true,
            ..begun()
        };
        let (item, next) = step(bytes, state);
        (item, next.place, next.misses, next.lock)
    };
    let idle = (Item::Idle(2 * FRAME), 3 * FRAME, 0, true);
    assert_eq!(step_from(&whole), idle);
    let done = (Item::Done(2 * FRAME), 2 * FRAME, 2, true);
    assert_eq!(step_from(&whole[..3 * FRAME - 1]), done);
    assert_eq!(nth(&whole, 3, 2), Ok(Item::Idle(2 * FRAME)));
    assert_eq!(nth(&whole, 3, 3), Ok(Item::Done(3 * FRAME)));
}

#[test]
fn items_by_number() {
    let mut record = record();
    record[2 * FRAME + 1] = 0;
    assert!(matches!(nth(&record, 3, 1), Ok(Item::Frame(FRAME, _))));
    assert_eq!(nth(&record, 3, 2), Ok(Item::Lost(2 * FRAME, 2)));
    for n in [4, 5, 1000] {
        assert_eq!(nth(&record, 3, n), Ok(Item::Done(4 * FRAME)));
    }
}

/// The places of the walk's frames, and those of its lost marks.
fn places(record: &[u8], limit: usize) -> (Vec<usize>, Vec<usize>) {
    let mut state = State::begin(limit).unwrap();
    let (mut frames, mut lost) = (Vec::new(), Vec::new());
    loop {
        let (item, next) = step(record, state);
        match item {
            Item::Frame(place, _) => frames.push(place),
            Item::Lost(place, _) => lost.push(place),
            Item::Idle(_) => {}
            Item::Done(_) => return (frames, lost),
        }
        state = next;
    }
}

fn frame_places(record: &[u8]) -> Vec<usize> {
    places(record, 3).0
}

fn four_from(start: usize) -> Vec<usize> {
    (0..4).map(|n| start + n * FRAME).collect()
}

#[test]
fn the_hunt_goes_on_behind_the_third_miss() {
    let mut damaged = record();
    damaged.extend(vec![0; 2 * FRAME + 100]);
    damaged.extend(record());
    let second = 6 * FRAME + 100;
    assert_eq!(
        frame_places(&damaged),
        [four_from(0), four_from(second)].concat()
    );
}

/// One padding byte lost: the frame still stands, and the lock on it lasts beyond the third frame's start.
#[test]
fn an_overhanging_frame_costs_four() {
    let mut damaged = record();
    damaged.truncate(4 * FRAME - 1);
    damaged.extend(record());
    assert_eq!(frame_places(&damaged), four_from(0));
}

#[test]
fn any_state_is_taken() {
    for lock in [false, true] {
        for place in [FRAME + 1, usize::MAX - 1, usize::MAX] {
            let state = State {
                place,
                misses: 255,
                lock,
                ..begun()
            };
            assert_eq!(step(&record()[..FRAME], state), (Item::Done(place), state));
        }
    }
}

#[test]
fn a_limit_is_a_number_from_1_to_8() {
    for limit in [0, 9, 255, 256 + 3, usize::MAX] {
        assert_eq!(State::begin(limit), Err(27));
        assert_eq!(nth(&record(), limit, 0), Err(27));
    }
    for limit in 1..=8 {
        let begun = State::begin(limit).unwrap();
        assert_eq!((begun.place, begun.misses, begun.lock), (0, 0, false));
        assert!(matches!(nth(&record(), limit, 0), Ok(Item::Frame(0, _))));
    }
}

/// Four frames and nine refused periods: as many lost marks as the limit, then the walk hunts to the end.
#[test]
fn the_lock_is_lost_at_the_limit() {
    let damaged = [record(), vec![0; 9 * FRAME]].concat();
    for limit in 1..=8 {
        let (frames, lost) = places(&damaged, limit);
        assert_eq!(frames, four_from(0));
        let refused: Vec<usize> = (4..4 + limit).map(|n| n * FRAME).collect();
        assert_eq!(lost, refused);
        let end = 13 * FRAME - 6143;
        assert_eq!(nth(&damaged, limit, 4 + limit), Ok(Item::Done(end)));
    }
}

/// One miss fewer than the limit, and the frame behind it is handed out in lock, with none to confirm it.
#[test]
fn the_lock_is_kept_below_the_limit() {
    for limit in 1..=8 {
        let refused = vec![0; (limit - 1) * FRAME];
        let damaged = [record(), refused, frames(1)].concat();
        let last = (4 + limit - 1) * FRAME;
        assert_eq!(places(&damaged, limit).0.last(), Some(&last));
        if limit > 1 {
            assert_eq!(places(&damaged, limit - 1).0, four_from(0));
        }
    }
}

/// A hundred bytes too many: of m + 1 frames behind them the m-th and the last are handed out, of m frames none.
#[test]
fn the_limit_th_frame_is_handed_out() {
    for limit in 1..=8 {
        let start = 4 * FRAME + 100;
        let behind = |count: usize| [record(), vec![0; 100], frames(count as u8)].concat();
        let due = [start + (limit - 1) * FRAME, start + limit * FRAME];
        let found = places(&behind(limit + 1), limit).0;
        assert_eq!(found[..4], four_from(0));
        assert_eq!(found[4..], due);
        assert_eq!(places(&behind(limit), limit).0, four_from(0));
    }
}

/// With limit 1 one miss drops the lock, and the hunt begins at the next byte; an idle item is no miss.
#[test]
fn no_patience() {
    let bytes = [&record()[..], &null(false), &[0], &frames(2)].concat();
    let first = 5 * FRAME + 1;
    let (found, lost) = places(&bytes, 1);
    assert_eq!(found, [four_from(0), vec![first, first + FRAME]].concat());
    assert_eq!(lost, [5 * FRAME]);
    assert_eq!(nth(&bytes, 1, 4), Ok(Item::Idle(4 * FRAME)));
}

/// Hunting or in lock, at a frame or not.
#[test]
fn a_walk_with_another_limit_is_done_where_it_is() {
    for (limit, lock) in [(0, false), (0, true), (9, false), (9, true), (255, true)] {
        for place in [0, 1, FRAME, 3 * FRAME] {
            let state = State {
                place,
                misses: 0,
                lock,
                limit,
            };
            assert_eq!(step(&record(), state), (Item::Done(place), state));
        }
    }
}

/// Done where it is at a frame and at a null transmission; hunting, the misses do not matter.
#[test]
fn a_walk_in_lock_at_its_limit_is_done_where_it_is() {
    for bytes in [record(), null(false)] {
        for (limit, misses) in [(1, 1), (1, 255), (3, 3), (3, 4), (8, 8), (8, 9)] {
            let state = State {
                place: 0,
                misses,
                lock: true,
                limit,
            };
            assert_eq!(step(&bytes, state), (Item::Done(0), state));
        }
    }
    for (limit, misses, lock) in [(1, 0, true), (8, 7, true), (1, 1, false), (8, 255, false)] {
        let state = State {
            place: 0,
            misses,
            lock,
            limit,
        };
        let (item, next) = step(&record(), state);
        assert!(matches!(item, Item::Frame(0, _)));
        let expected = State {
            place: FRAME,
            misses: 0,
            lock: true,
            limit,
        };
        assert_eq!(next, expected);
    }
}

/// F9FFFF, 16,383,999 periods, is the last time; up to FFFFFE numbers are reserved and kept; FFFFFF is none.
#[test]
fn sorts_of_timestamps() {
    for (number, timestamp) in [
        (0xF9_FFFF, Timestamp::Time(16_383_999)),
        (0xFA_0000, Timestamp::Reserved(0xFA_0000)),
        (0xFF_FFFE, Timestamp::Reserved(0xFF_FFFE)),
        (0xFF_FFFF, Timestamp::None),
    ] {
        let fields = Fields {
            timestamp,
            ..bare()
        };
        let frame = written(&fields).unwrap();
        assert_eq!(frame[17..20], u32::to_be_bytes(number)[1..]);
        assert_eq!(read(&frame).unwrap().header.timestamp, timestamp);
    }
    for timestamp in [
        Timestamp::Time(0xFA_0000),
        Timestamp::Reserved(0xF9_FFFF),
        Timestamp::Reserved(0xFF_FFFF),
    ] {
        assert_eq!(
            written(&Fields {
                timestamp,
                ..bare()
            }),
            Err(12)
        );
    }
}

/// Both sums are answered, also when they agree, and a relay does not write the one that came. B65E was worked out in Python.
#[test]
fn both_sums_are_answered() {
    let sums = |frame: &[u8]| {
        let header = read(frame).unwrap().header;
        (header.sent, header.worked)
    };
    for (lengths, worked) in [(&[][..], 0x0000), (&[1], 0xB65E)] {
        let mut frame = written(&with_lengths(bare(), lengths)).unwrap();
        assert_eq!(sums(&frame), (worked, worked));
        let end = main_stream_part(&frame).unwrap().end;
        frame[end..end + 2].copy_from_slice(&[0x12, 0x34]);
        assert_eq!(sums(&frame), (0x1234, worked));
        let mut out = vec![0; FRAME];
        assert_eq!(relay(&frame, &mut out), 0);
        assert_eq!(sums(&out), (worked, worked));
    }
}
