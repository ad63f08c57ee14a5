//! EDI packets worked out by hand from clause 5 and annex A.2.

use independent::edi::regenerate;
use independent::frame::{main_stream_part, read, Timestamp, FRAME};
use independent::sum::sum;

/// An item with its length stated in bits.
fn item(name: &[u8; 4], bits: u32, value: &[u8]) -> Vec<u8> {
    [&name[..], &bits.to_be_bytes(), value].concat()
}

fn whole(name: &[u8; 4], value: &[u8]) -> Vec<u8> {
    item(name, 8 * value.len() as u32, value)
}

/// No flags; FCT 5, status FF, MID 1, FP 2, MNSC 1234.
const BARE: [u8; 6] = [0x00, 0x05, 0xFF, 0x50, 0x12, 0x34];

fn bare() -> Vec<u8> {
    whole(b"deti", &BARE)
}

/// Bare management with one byte changed.
fn changed(at: usize, byte: u8) -> Vec<u8> {
    let mut value = BARE;
    value[at] = byte;
    whole(b"deti", &value)
}

/// SCID 1, SAD 54, TPL 34, and so many bytes of 11.
fn stream(number: u8, bytes: usize) -> Vec<u8> {
    let value = [&[0x04, 0x36, 0x8B][..], &vec![0x11; bytes]].concat();
    whole(&[b'e', b's', b't', number], &value)
}

/// The number, with the output's bytes where it is 0; refused, not one is written.
fn told(packet: &[u8], length: usize) -> Result<Vec<u8>, u8> {
    let mut out = vec![0xA7; length];
    match regenerate(packet, false, &mut out) {
        0 => Ok(out),
        number => {
            assert!(out.iter().all(|&byte| byte == 0xA7));
            Err(number)
        }
    }
}

fn number(parts: &[Vec<u8>]) -> u8 {
    told(&parts.concat(), FRAME).err().unwrap_or(0)
}

#[test]
fn management_alone() {
    let frame = told(&bare(), FRAME).unwrap();
    let carried = [
        0xFF, 0x07, 0x3A, 0xB6, 0x05, 0x00, 0x48, 0x01, 0x12, 0x34, 0x7D, 0x47, 0x00, 0x00, 0xFF,
        0xFF, 0xFF, 0xFF, 0xFF, 0xFF,
    ];
    assert_eq!(frame[..20], carried);
    assert!(frame[20..].iter().all(|&byte| byte == 0x55));
}

/// Every field there, the items backwards and with strangers; bits that have no place in the frame are set.
#[test]
fn every_field() {
    let fic: Vec<u8> = (0..96).collect();
    let management = [
        &[0xFF, 0xF9, 0x0F, 0xAF, 0xAB, 0xCD][..],
        &[2, 1, 2, 3, 4, 0xF9, 0xFF, 0xFF],
        &fic,
        &[0x12, 0x34, 0x56],
    ]
    .concat();
    let packet = [
        whole(b"est\x02", &[0xFF, 0xFF, 0x03]),
        whole(b"est\x41", &[1]),
        stream(1, 8),
        whole(b"info", &bare()),
        whole(b"deti", &management),
        whole(b"est\x00", &[]),
        vec![b'd', b'e', b't', b'i', 0, 0, 0],
    ];
    let mut frame = vec![0; FRAME];
    assert_eq!(regenerate(&packet.concat(), true, &mut frame), 0);
    let head = [
        0x0F, 0xF8, 0xC5, 0x49, 0xF9, 0x82, 0xB0, 0x1D, 0x04, 0x36, 0x88, 0x01, 0xFF, 0xFF, 0x00,
        0x00, 0xAB, 0xCD, 0xCC, 0x1C,
    ];
    assert_eq!(frame[..20], head);
    assert_eq!(frame[20..116], fic);
    assert_eq!(frame[116..124], [0x11; 8]);
    let end = [
        0xAB, 0x1A, 0x12, 0x34, 0x56, 0xF9, 0xFF, 0xFF, 0x55, 0x55, 0x55, 0x55,
    ];
    assert_eq!(frame[124..136], end);
    let header = read(&frame).unwrap().header;
    assert_eq!(header.timestamp, Timestamp::Time(16_383_999));
    assert_eq!((header.level, header.fp, header.mid), (2, 5, 2));
}

#[test]
fn fields_that_are_missing() {
    let time = whole(
        b"deti",
        &[0x80, 5, 0xFF, 0x50, 0x12, 0x34, 0, 0, 0, 0, 0, 0xFA, 0, 0],
    );
    let header = |packet| read(&told(packet, FRAME).unwrap()).unwrap().header;
    let with_time = header(&time);
    assert_eq!(with_time.timestamp, Timestamp::Reserved(0xFA_0000));
    assert_eq!((with_time.rfu, with_time.rfa), (0xFFFF, 0xFF));
    let reserved = whole(b"deti", &[0x20, 5, 0xFF, 0x50, 0x12, 0x34, 1, 2, 3]);
    let with_reserved = header(&reserved);
    assert_eq!(with_reserved.timestamp, Timestamp::None);
    assert_eq!((with_reserved.rfu, with_reserved.rfa), (0x0102, 0x03));
}

#[test]
fn fic_by_mode() {
    for (mid, right) in [(0, 96), (1, 96), (2, 96), (3, 128)] {
        for length in [0, 95, 96, 97, 127, 128, 129] {
            let head = [0x40, 5, 0xFF, mid << 6, 0, 0];
            let management = whole(b"deti", &[&head[..], &vec![7; length]].concat());
            let expected = if length == right { 0 } else { 21 };
            assert_eq!(number(&[management]), expected);
        }
    }
}

#[test]
fn items_that_cannot_be() {
    for (bits, expected) in [
        (0, 0),
        (8, 0),
        (16, 20),
        (9, 20),
        (7, 20),
        (0xFFFF_FFF8, 20),
    ] {
        let value = vec![0; 1.min(bits as usize / 8)];
        assert_eq!(number(&[bare(), item(b"info", bits, &value)]), expected);
        assert_eq!(number(&[item(b"est\x41", bits, &value), bare()]), expected);
    }
    for length in [0, 1, 2, 4, 10, 12, 18, 20] {
        let stream = whole(b"est\x01", &vec![0; length]);
        assert_eq!(number(&[bare(), stream]), 20);
    }
    for length in [3, 11, 19] {
        let stream = whole(b"est\x01", &vec![0; length]);
        assert_eq!(number(&[bare(), stream]), 0);
    }
}

#[test]
fn up_to_seven_bytes_at_the_end() {
    for padding in 0..8 {
        assert_eq!(number(&[bare(), vec![0xFF; padding]]), 0);
    }
    assert_eq!(number(&[bare(), vec![0xFF; 8]]), 20);
    assert_eq!(number(&[bare(), vec![0; 8]]), 0);
}

#[test]
fn management_once() {
    assert_eq!(number(&[]), 21);
    assert_eq!(number(&[vec![0; 7]]), 21);
    assert_eq!(number(&[whole(b"Deti", &BARE)]), 21);
    assert_eq!(number(&[bare(), bare()]), 21);
    for length in [0, 1, 5, 7] {
        assert_eq!(number(&[whole(b"deti", &vec![0; length])]), 21);
    }
}

#[test]
fn streams_each_once() {
    let all: Vec<Vec<u8>> = (1..=64).rev().map(|number| stream(number, 0)).collect();
    assert_eq!(number(&[&all[..], &[bare()]].concat()), 0);
    let more = [stream(0, 0), stream(65, 0), stream(255, 0)];
    assert_eq!(number(&[&all[..], &more, &[bare()]].concat()), 0);
    assert_eq!(number(&[&all[..63], &[bare()]].concat()), 22);
    assert_eq!(number(&[bare(), stream(2, 0)]), 22);
    assert_eq!(number(&[bare(), stream(1, 0), stream(1, 0)]), 22);
    // As many as the highest number, and yet not each once.
    assert_eq!(number(&[bare(), stream(2, 0), stream(2, 8)]), 22);
}

#[test]
fn writing_s_refusals() {
    for status in 0..=255 {
        let expected = if [0xFF, 0xF0, 0x0F, 0].contains(&status) {
            0
        } else {
            35
        };
        assert_eq!(number(&[changed(2, status)]), expected);
    }
    assert_eq!(number(&[changed(1, 249)]), 0);
    assert_eq!(number(&[changed(1, 250)]), 7);
    for (stl, expected) in [(684, 0), (685, 8), (1023, 8), (1024, 12), (65_536, 12)] {
        assert_eq!(number(&[bare(), stream(1, 8 * stl)]), expected);
    }
    // FL 1,532 with three streams of 764 in all, FL 1,533 with two of 765.
    let three = [bare(), stream(1, 8 * 684), stream(2, 8 * 80), stream(3, 0)];
    assert_eq!(number(&three), 0);
    let two = [bare(), stream(1, 8 * 684), stream(2, 8 * 81)];
    assert_eq!(number(&two), 10);
    for length in [0, FRAME - 1, FRAME + 1] {
        assert_eq!(told(&bare(), length), Err(1));
    }
}

/// Each fault is left out in turn: 20, 21, 22, 35, 1, 12, 7, 8, 10.
#[test]
fn order_of_the_tests() {
    let mut length = FRAME - 1;
    let mut management = changed(1, 250);
    management[10] = 0x01;
    let mut items = vec![management, bare(), stream(2, 8 * 1024), vec![0xFF; 8]];
    let check = |items: &[Vec<u8>], length, number| {
        assert_eq!(told(&items.concat(), length).err(), number);
    };
    check(&items, length, Some(20));
    items.pop();
    check(&items, length, Some(21));
    items.remove(1);
    check(&items, length, Some(22));
    items.push(stream(1, 8 * 685));
    check(&items, length, Some(35));
    items[0][10] = 0xFF;
    check(&items, length, Some(1));
    length = FRAME;
    check(&items, length, Some(12));
    items[1] = stream(2, 8 * 80);
    check(&items, length, Some(7));
    items[0] = bare();
    check(&items, length, Some(8));
    items[2] = stream(1, 8 * 684);
    items[1] = stream(2, 8 * 81);
    check(&items, length, Some(10));
    items[1] = stream(2, 8 * 80);
    check(&items, length, None);
}

#[test]
fn cut_at_every_byte() {
    let packet = [bare(), stream(1, 8), vec![0; 7]].concat();
    for length in 0..=packet.len() {
        let expected = match length {
            // Not eight bytes are there, so no item.
            0..=7 => Some(21),
            8..=13 => Some(20),
            14..=21 => None,
            22..=32 => Some(20),
            _ => None,
        };
        assert_eq!(told(&packet[..length], FRAME).err(), expected, "{length}");
    }
}

/// The sample: streams 3, 1 and 2 with strangers between them, management behind the second, three bytes at the end.
#[test]
fn sample_packet() {
    let packet = include_bytes!("packet.edi");
    let frame = told(packet, FRAME).unwrap();
    // The sum of annex D over the whole frame, made without this implementation.
    assert_eq!(sum(&frame), 0x53F9);
    let reading = read(&frame).unwrap();
    let header = reading.header;
    assert_eq!(
        (header.level, header.fct, header.fp, header.mid),
        (1, 42, 3, 1)
    );
    assert_eq!((header.nst, header.fl, header.mnsc), (3, 172, 0xFFFF));
    assert_eq!((header.rfu, header.rfa), (0xFFFF, 0xFF));
    assert_eq!(header.timestamp, Timestamp::Time(0x3E_8000));
    let entries = reading.table[..3]
        .iter()
        .map(|entry| (entry.scid, entry.sad, entry.tpl, entry.stl));
    let expected = [(1, 54, 34, 24), (2, 90, 35, 48), (3, 0, 16, 0)];
    assert!(entries.eq(expected));
    let mut main = (0..96).map(|i| i * 7 % 256).collect::<Vec<usize>>();
    main.extend((0..192).map(|i| (i * 3 + 17) % 256));
    main.extend((0..384).map(|i| (i * 3 + 34) % 256));
    let bytes = frame[main_stream_part(&frame).unwrap()].iter();
    assert!(bytes.map(|&byte| usize::from(byte)).eq(main));
}
