//! The generator's frames, field sets and lines hold the edges of T-02, T-03 and T-07.

use independent::frame::{main_stream_part, read, Timestamp, FRAME};
use independent::generate::frames::frame_case;
use independent::generate::writings::{writing_case, Fault};
use independent::generate::{Random, Sort};
use independent::writing::write;
use std::collections::HashSet;

const SEED: u64 = 1;
const CASES: u64 = 20_000;

#[test]
fn the_edges_of_every_sort_are_read() {
    let read = |case| read(&frame_case(&mut Random::new(SEED, Sort::Frame, case)).1);
    let met: HashSet<u32> = (0..CASES)
        .filter_map(|case| read(case).ok())
        .map(|reading| reading.header.timestamp.number())
        .collect();
    for number in [0, 0xF9_FFFF, 0xFA_0000, 0xFF_FFFE, 0xFF_FFFF] {
        assert!(met.contains(&number), "{number:06X}");
    }
}

/// With every level read and each outcome of the comparison, the empty main stream's too.
#[test]
fn sums_are_equal_and_not() {
    let mut met = HashSet::new();
    for case in 0..CASES {
        let (_, frame) = frame_case(&mut Random::new(SEED, Sort::Frame, case));
        if let Ok(reading) = read(&frame) {
            let equal = reading.header.sent == reading.header.worked;
            let empty = main_stream_part(&frame).is_ok_and(|part| part.is_empty());
            met.insert((frame[0], equal, empty));
        }
    }
    assert_eq!(met.len(), 4 * 2 * 2);
}

/// Each edge is written as its own sort, and refused with 12 as another, for no other reason.
#[test]
fn the_edges_of_every_sort_are_written_and_refused() {
    let (mut written, mut refused) = (HashSet::new(), HashSet::new());
    for case in 0..CASES {
        let writing = writing_case(&mut Random::new(SEED, Sort::Writing, case));
        let (is_time, number) = match writing.fields.timestamp {
            Timestamp::None => continue,
            Timestamp::Time(number) => (true, number),
            Timestamp::Reserved(number) => (false, number),
        };
        let answer = write(&writing.fields, &writing.main, &mut [0; FRAME]);
        if answer == 0 {
            written.insert((is_time, number));
        }
        if writing.faults == [Fault::WideTime] {
            assert_eq!(answer, 12);
            refused.insert((is_time, number));
        }
    }
    for edge in [
        (true, 0),
        (true, 0xF9_FFFF),
        (false, 0xFA_0000),
        (false, 0xFF_FFFE),
    ] {
        assert!(written.contains(&edge), "{edge:?}");
    }
    for number in [0xFF_FFFF, 0x100_0000, u32::MAX] {
        assert!(refused.contains(&(true, number)) && refused.contains(&(false, number)));
    }
    for edge in [
        (true, 0xFA_0000),
        (true, 0xFF_FFFE),
        (false, 0xF9_FFFF),
        (false, 0),
    ] {
        assert!(refused.contains(&edge), "{edge:?}");
    }
}
