//! Fault logs and sheets worked out by hand.

use independent::generate::logs::log_case;
use independent::generate::{Random, Sort};
use independent::log::{entry, read, sheet, write, Bad, Entry, Sheet, RECORD, SHEET};
use independent::walk::{step, Item, State};

fn made(place: u64, kind: u8, code: u8, level: u8) -> Entry {
    Entry {
        place,
        kind,
        code,
        level,
    }
}

fn frame(fct: u8) -> Entry {
    made(0, 0, fct, 0)
}

const LOST: Entry = Entry {
    place: 0,
    kind: 1,
    code: 2,
    level: 0xFF,
};
const IDLE: Entry = Entry {
    place: 0,
    kind: 2,
    code: 4,
    level: 0xFF,
};

fn log(entries: &[Entry]) -> Vec<u8> {
    entries.iter().flat_map(Entry::bytes).collect()
}

/// The sheet of a log that is not refused.
fn sheet_of(log: &[u8]) -> Sheet {
    let mut bytes = vec![0; SHEET];
    assert_eq!(sheet(log, &mut bytes), 0);
    Sheet::of(&bytes)
}

fn missing(fcts: &[u8]) -> u128 {
    let entries: Vec<Entry> = fcts.iter().map(|&fct| frame(fct)).collect();
    sheet_of(&log(&entries)).missing
}

#[test]
fn records() {
    let cases = [
        (
            made(6144, 0, 11, 3),
            [0, 0, 0, 0, 0, 0, 0x18, 0, 0, 11, 3, 0, 0, 0, 0, 0],
        ),
        (
            made(12288, 1, 2, 0xFF),
            [0, 0, 0, 0, 0, 0, 0x30, 0, 1, 2, 0xFF, 0, 0, 0, 0, 0],
        ),
        (
            made(1 << 56, 2, 4, 0xFF),
            [1, 0, 0, 0, 0, 0, 0, 0, 2, 4, 0xFF, 0, 0, 0, 0, 0],
        ),
    ];
    for (made, bytes) in cases {
        let mut record = [0xA7; RECORD];
        assert_eq!(write(&made, &mut record), 0);
        assert_eq!(record, bytes);
        assert_eq!(entry(&record, 0), Ok(made));
    }
}

/// 250 FCTs at four levels, eight refusals, and 4.
#[test]
fn what_is_allowed() {
    let byte = || 0..=255_u8;
    let every = byte().flat_map(|kind| byte().map(move |code| (kind, code)));
    let allowed = every
        .flat_map(|(kind, code)| byte().map(move |level| made(0, kind, code, level)))
        .filter(Entry::allowed);
    assert_eq!(allowed.count(), 4 * 250 + 8 + 1);
    for refused in [
        made(0, 0, 250, 0),
        made(0, 0, 0, 4),
        made(0, 0, 0, 0xFF),
        made(0, 1, 4, 0xFF),
        made(0, 1, 1, 0xFF),
        made(0, 1, 11, 0xFF),
        made(0, 1, 2, 0),
        made(0, 2, 2, 0xFF),
        made(0, 2, 4, 0),
        made(0, 3, 0, 0xFF),
    ] {
        let mut record = [0xA7; RECORD];
        assert_eq!(write(&refused, &mut record), 29);
        assert_eq!(record, [0xA7; RECORD]);
        assert_eq!(write(&refused, &mut [0; 15]), 37);
        assert_eq!(read(&refused.bytes()), Err(Bad::Record(0)));
    }
    assert_eq!(write(&frame(0), &mut [0; 17]), 37);
}

#[test]
fn bad_logs() {
    let good = log(&[frame(1), LOST, IDLE]);
    assert_eq!(read(&good), Ok(vec![frame(1), LOST, IDLE]));
    assert_eq!(read(&[]), Ok(vec![]));
    for length in 0..good.len() {
        let expected = (length % 16 != 0).then_some(Bad::Length);
        assert_eq!(read(&good[..length]).err(), expected);
    }
    for at in 11..RECORD {
        let mut bad = good.clone();
        bad[32 + at] = 1;
        assert_eq!(read(&bad), Err(Bad::Record(2)));
        bad[16 + at] = 1;
        assert_eq!(read(&bad), Err(Bad::Record(1)));
        assert_eq!(entry(&bad, 0), Ok(frame(1)));
        assert_eq!(entry(&bad, 1), Err(29));
        assert_eq!(entry(&bad, 3), Err(34));
        assert_eq!(entry(&bad[..47], 3), Err(28));
        assert_eq!(sheet(&bad, &mut [2; SHEET]), 29);
        assert_eq!(sheet(&bad[..47], &mut [2; SHEET]), 28);
        assert_eq!(sheet(&bad[..47], &mut [2; SHEET + 1]), 1);
    }
}

#[test]
fn frames_missing() {
    assert_eq!(missing(&[]), 0);
    assert_eq!(missing(&[249]), 0);
    assert_eq!(missing(&[10, 11, 13]), 1);
    assert_eq!(missing(&[249, 0]), 0);
    assert_eq!(missing(&[248, 1]), 2);
    assert_eq!(missing(&[7, 7]), 249);
    assert_eq!(missing(&[7, 6]), 248);
    // Others are skipped.
    let sheet = sheet_of(&log(&[frame(10), LOST, IDLE, LOST, frame(14)]));
    assert_eq!(sheet.missing, 3);
    assert_eq!(sheet.last, Some(14));
}

#[test]
fn rows() {
    let entries = [
        made(0, 0, 0, 0),
        made(0, 0, 1, 3),
        made(0, 0, 2, 3),
        made(0, 1, 2, 0xFF),
        made(0, 1, 10, 0xFF),
        made(0, 1, 10, 0xFF),
        IDLE,
    ];
    let mut bytes = vec![0; SHEET];
    assert_eq!(sheet(&log(&entries), &mut bytes), 0);
    let mut expected = vec![0; SHEET];
    for (row, count) in [(0, 1), (3, 2), (6, 1), (14, 2), (15, 1)] {
        expected[8 * row + 7] = count;
    }
    expected[144..].copy_from_slice(&[1, 2]);
    assert_eq!(bytes, expected);
}

/// Frames missing carry over at 1,000,000,000.
#[test]
fn high_and_low() {
    let lent = Sheet {
        missing: 4_999_999_999,
        last: Some(0),
        ..Sheet::default()
    };
    let mut bytes = lent.bytes();
    assert_eq!(
        bytes[128..144],
        [0, 0, 0, 0, 0, 0, 0, 4, 0, 0, 0, 0, 0x3B, 0x9A, 0xC9, 0xFF]
    );
    assert_eq!(sheet(&log(&[frame(2)]), &mut bytes), 0);
    assert_eq!(
        bytes[128..144],
        [0, 0, 0, 0, 0, 0, 0, 5, 0, 0, 0, 0, 0, 0, 0, 0]
    );
    assert_eq!(bytes[144..], [1, 2]);
}

/// The sheet of two logs joined is the sum of the sheets, but for the difference across the seam.
#[test]
fn two_logs_joined() {
    for case in 0..500 {
        let random = &mut Random::new(1, Sort::Log, case);
        let (first, second) = (log_case(random).bytes, log_case(random).bytes);
        let (Ok(before), Ok(behind)) = (read(&first), read(&second)) else {
            continue;
        };
        let (one, other) = (sheet_of(&first), sheet_of(&second));
        let both = sheet_of(&[&first[..], &second].concat());
        for row in 0..16 {
            assert_eq!(both.rows[row], one.rows[row] + other.rows[row]);
        }
        let last = before.iter().rfind(|entry| entry.kind == 0);
        let next = behind.iter().find(|entry| entry.kind == 0);
        let seam = match (last, next) {
            (Some(last), Some(next)) => missing(&[last.code, next.code]),
            _ => 0,
        };
        assert_eq!(both.missing, one.missing + other.missing + seam);
        assert_eq!(
            both.rows.iter().sum::<u64>() as usize,
            before.len() + behind.len()
        );
    }
}

/// The scope's four frames, of which the third's sync word is broken.
#[test]
fn log_of_a_record() {
    let record = include_bytes!("../../../samples/four.eti");
    let mut entries = Vec::new();
    let mut state = State::begin(3).unwrap();
    loop {
        let (item, next) = step(record, state);
        if let Item::Done(_) = item {
            assert_eq!(write(&Entry::of(&item), &mut [0; RECORD]), 29);
            break;
        }
        entries.push(Entry::of(&item));
        state = next;
    }
    let expected = [
        made(0, 0, 10, 0),
        made(6144, 0, 11, 0),
        made(12288, 1, 2, 0xFF),
        made(18432, 0, 13, 0),
    ];
    assert_eq!(entries, expected);
    let sheet = sheet_of(&log(&entries));
    assert_eq!((sheet.rows[0], sheet.rows[6], sheet.missing), (3, 1, 1));
}

/// Sheets that cannot go on: no room for as many as the log's records, or a last frame that cannot be.
#[test]
fn sheets_refused() {
    let added = |at: usize, part: &[u8], log: &[u8]| {
        let mut lent = vec![0; SHEET];
        lent[at..at + part.len()].copy_from_slice(part);
        let before = lent.clone();
        let number = sheet(log, &mut lent);
        assert!(number == 0 || lent == before);
        number
    };
    let two = log(&[frame(1), frame(2)]);
    for total in (0..17).map(|n| 8 * n) {
        assert_eq!(added(total, &(u64::MAX - 1).to_be_bytes(), &two), 12);
        assert_eq!(added(total, &(u64::MAX - 2).to_be_bytes(), &two), 0);
        assert_eq!(added(total, &u64::MAX.to_be_bytes(), &[]), 0);
    }
    assert_eq!(added(136, &1_000_000_000_u64.to_be_bytes(), &[]), 12);
    assert_eq!(added(136, &999_999_999_u64.to_be_bytes(), &[]), 0);
    for (last, expected) in [([0, 1], 12), ([1, 249], 0), ([1, 250], 12), ([2, 0], 12)] {
        assert_eq!(added(144, &last, &two), expected);
        assert_eq!(added(144, &last, &two[1..]), 28);
    }
}
