//! Signalling groups and messages worked out by hand from clause 5.5.1 and annex A.3.

use independent::signalling::{frames, items, send, Frame, Item};

/// Type 7, no continuation, message bytes 1 to 8.
const SHORT: [u8; 16] = [0xC0, 0, 7, 0, 1, 2, 3, 4, 0xCC, 0, 5, 6, 7, 8, 0x21, 0x27];
/// Type 128, one continuation, message bytes 1 to 14.
const LONG: [u8; 24] = [
    0xC0, 0, 128, 1, 1, 2, 3, 4, 0xC3, 0, 5, 6, 7, 8, 9, 10, 0xCC, 0, 11, 12, 13, 14, 0xC1, 0x20,
];
/// The short message with reserved bits set, which the sum covers.
const RESERVED: [u8; 16] = [
    0xF0, 0x99, 7, 0, 1, 2, 3, 4, 0xDC, 0x88, 5, 6, 7, 8, 0xAD, 0x4B,
];

/// For each item its frame and its number, 0 for a message.
fn told(frames: &[Frame]) -> Vec<(usize, u8)> {
    let number = |item: &Item| match item {
        Item::Message(..) => 0,
        Item::Drop(number) => *number,
    };
    items(frames)
        .iter()
        .map(|(frame, item)| (*frame, number(item)))
        .collect()
}

fn bytes(last: u8) -> Vec<u8> {
    (1..=last).collect()
}

fn groups(parts: &[&[u8]]) -> Vec<Frame> {
    frames(&parts.concat())
}

#[test]
fn messages() {
    let short = Item::Message(7, bytes(8));
    assert_eq!(items(&frames(&SHORT)), [(7, short.clone())]);
    assert_eq!(items(&frames(&RESERVED)), [(7, short)]);
    let long = Item::Message(128, bytes(14));
    assert_eq!(items(&frames(&LONG)), [(11, long)]);
}

#[test]
fn the_way_back() {
    assert_eq!(send(7, &bytes(8), 16), Ok(SHORT.to_vec()));
    assert_eq!(send(128, &bytes(14), 24), Ok(LONG.to_vec()));
    for length in 0..1700 {
        let carried = length >= 8 && (length - 8) % 6 == 0 && length <= 1538;
        let out = 16 + 8 * (length.max(8) - 8) / 6;
        let sent = send(0, &vec![0; length], out);
        assert_eq!(sent.err(), (!carried).then_some(36), "{length}");
        assert_eq!(
            send(0, &vec![0; length], 15).err(),
            Some(if carried { 1 } else { 36 })
        );
    }
}

/// Padding, other asynchronous groups and those that are none are passed over anywhere.
#[test]
fn groups_passed_over() {
    for first in 0..=255 {
        let asynchronous = first & 0xC0 == 0xC0;
        let met = asynchronous && [0, 3, 12].contains(&(first & 0x0F));
        let other = [first, 1, 2, 3, 4, 5, 6, 7];
        let all = groups(&[
            &other,
            &LONG[..8],
            &other,
            &LONG[8..16],
            &other,
            &LONG[16..],
            &other,
        ]);
        let expected = vec![(23, 0)];
        assert_eq!(told(&all) == expected, !met, "{first}");
    }
}

#[test]
fn phase_out_of_turn() {
    let frame = |fp| Frame { fp, mnsc: 0xFFFF };
    // One drop until the next phase 0, also at the very beginning.
    assert_eq!(told(&[1, 2, 3, 1, 3].map(frame)), [(0, 24)]);
    assert_eq!(told(&[0, 1, 3, 2, 1].map(frame)), [(2, 24)]);
    // The offending phase 0 begins afresh.
    assert_eq!(told(&[0, 1, 0, 0, 1, 2, 3].map(frame)), [(2, 24), (3, 24)]);
    // The low two bits of FP are the phase.
    assert_eq!(told(&[4, 1, 6, 7, 252, 253, 2, 255].map(frame)), []);
    assert_eq!(told(&[4, 1, 6, 7, 3].map(frame)), [(4, 24)]);
    let begun: Vec<Frame> = [&[frame(0)][..], &frames(&SHORT)].concat();
    assert_eq!(told(&begun), [(1, 24), (8, 0)]);
}

/// A dropped group leaves an open message open; the padding group that was dropped is not missed.
#[test]
fn a_drop_in_an_open_message() {
    let mut all = groups(&[&LONG[..16], &[0xFF; 8], &LONG[16..]]);
    all.remove(9);
    assert_eq!(told(&all), [(9, 24), (14, 0)]);
}

#[test]
fn group_out_of_turn() {
    let (start, more, end) = (&LONG[..8], &LONG[8..16], &LONG[16..]);
    assert_eq!(told(&groups(&[more, end])), [(3, 25), (7, 25)]);
    // An end too early and a continuation too many end the message.
    assert_eq!(told(&groups(&[start, end, more])), [(7, 25), (11, 25)]);
    assert_eq!(
        told(&groups(&[start, more, more, end])),
        [(11, 25), (15, 25)]
    );
    // A start in an open message begins anew.
    assert_eq!(
        told(&groups(&[start, start, more, end])),
        [(7, 25), (15, 0)]
    );
    assert_eq!(
        told(&groups(&[start, more, start, more, end])),
        [(11, 25), (19, 0)]
    );
    assert_eq!(told(&groups(&[start, &SHORT])), [(7, 25), (11, 0)]);
}

/// Every bit that the sum covers; where it makes another group of one, that is told instead.
#[test]
fn closing_sum_wrong() {
    for bit in 0..8 * LONG.len() {
        let mut wrong = LONG;
        wrong[bit / 8] ^= 0x80 >> (bit % 8);
        let all = told(&groups(&[&wrong, &SHORT]));
        assert!(!all.contains(&(11, 0)), "{bit}");
        assert_eq!(all.last(), Some(&(19, 0)), "{bit}");
        let kinds = [0, 3, 8, 11, 16, 19].contains(&(bit / 8));
        if !kinds {
            assert_eq!(all, [(11, 26), (19, 0)], "{bit}");
        }
    }
}

/// The longest message, and one continuation fewer and more than it states.
#[test]
fn the_longest() {
    let message: Vec<u8> = (0..1538).map(|byte| byte as u8).collect();
    let sent = send(9, &message, 2056).unwrap();
    let last = 4 * 257 - 1;
    assert_eq!(items(&frames(&sent)), [(last, Item::Message(9, message))]);
    let fewer = [&sent[..8], &sent[16..]].concat();
    assert_eq!(told(&frames(&fewer)), [(last - 4, 25)]);
    let more = [&sent[..16], &sent[8..]].concat();
    assert_eq!(told(&frames(&more)), [(last, 25), (last + 4, 25)]);
}
