//! The profile at its edges, by the tables of EN 300 401 and the customer's words.

use independent::frame::{Stream, MOST_STREAMS};
use independent::generate::profiles::{frame_of, profile_case, Change};
use independent::generate::{Random, Sort};
use independent::profile::{collision, profile, size, Collision, UNEQUAL};

/// TPL of an unequal protection level, and of options A and B.
fn unequal(level: u8) -> u8 {
    level - 1
}

fn equal_a(level: u8) -> u8 {
    0b10_0000 | (level - 1)
}

fn equal_b(level: u8) -> u8 {
    0b10_0100 | (level - 1)
}

fn stream(scid: u8, sad: u16, tpl: u8, stl: u16) -> Stream {
    Stream {
        scid,
        sad,
        tpl,
        stl,
    }
}

fn told(streams: &[Stream]) -> (u8, usize, usize) {
    let Collision {
        number,
        first,
        second,
    } = collision(streams).unwrap_or(Collision {
        number: 0,
        first: 0,
        second: 0,
    });
    (number, first, second)
}

#[test]
fn sizes() {
    let mut count = 0;
    for (rate, sizes) in UNEQUAL {
        for level in 1..=5 {
            let expected = sizes[5 - usize::from(level)];
            count += usize::from(expected.is_some());
            assert_eq!(size(unequal(level), (rate * 3 / 8) as u16), expected);
            // The reserved bit is not judged; table switch 1 has no size.
            let reserved = size(unequal(level) | 16, (rate * 3 / 8) as u16);
            assert_eq!(reserved, expected);
            assert_eq!(size(unequal(level) | 8, (rate * 3 / 8) as u16), None);
        }
    }
    assert_eq!(count, 64);
    assert_eq!(size(unequal(5), 12), Some(16));
    assert_eq!(size(unequal(1), 12), Some(35));
    assert_eq!(size(unequal(1), 144), Some(416));
    // 320 kbit/s at level 3, level 6, another rate.
    assert_eq!(size(unequal(3), 120), None);
    assert_eq!(size(unequal(6), 12), None);
    assert_eq!(size(unequal(5), 13), None);
    for n in 1..=57 {
        let sizes = [1, 2, 3, 4].map(|level| size(equal_a(level), 3 * n));
        assert_eq!(sizes, [12, 8, 6, 4].map(|each| Some(each * usize::from(n))));
        let sizes = [1, 2, 3, 4].map(|level| size(equal_b(level), 12 * n));
        assert_eq!(
            sizes,
            [27, 21, 18, 15].map(|each| Some(each * usize::from(n)))
        );
    }
    assert_eq!(size(equal_a(1), 4), None);
    assert_eq!(size(equal_b(1), 15), None);
    assert_eq!(size(0b10_1000, 12), None);
}

#[test]
fn edges() {
    // The last unit is 863, then 864.
    assert_eq!(told(&[stream(0, 860, equal_a(4), 3)]), (0, 0, 0));
    assert_eq!(told(&[stream(0, 861, equal_a(4), 3)]), (32, 0, 0));
    // Touching, then overlapping by one unit, in either order.
    let first = stream(0, 100, equal_a(4), 3);
    assert_eq!(told(&[first, stream(1, 104, equal_a(4), 3)]), (0, 0, 0));
    assert_eq!(told(&[first, stream(1, 103, equal_a(4), 3)]), (33, 0, 1));
    assert_eq!(told(&[stream(1, 96, equal_a(4), 3), first]), (0, 0, 0));
    assert_eq!(told(&[stream(1, 97, equal_a(4), 3), first]), (33, 0, 1));
    // Equal SCIDs come before anything else, also of streams with STL 0, which take no units.
    assert_eq!(told(&[first, stream(0, 100, 63, 0)]), (30, 0, 1));
    assert_eq!(told(&[first, stream(1, 101, 63, 0)]), (0, 0, 0));
    assert_eq!(told(&[first, stream(1, 1023, 0, 0)]), (0, 0, 0));
    // One without a size comes before one beyond the units, and that before two that overlap.
    let beyond = stream(1, 863, equal_a(4), 3);
    let sizeless = stream(2, 0, equal_a(4), 4);
    let over = stream(3, 101, equal_a(4), 3);
    assert_eq!(told(&[first, over, beyond, sizeless]), (31, 3, 3));
    assert_eq!(told(&[first, over, beyond]), (32, 2, 2));
    assert_eq!(told(&[first, over]), (33, 0, 1));
}

#[test]
fn the_first_two_in_table_order() {
    let a = |scid, sad| stream(scid, sad, equal_a(4), 3);
    // The pair (0, 3) comes before (1, 2).
    assert_eq!(told(&[a(0, 0), a(1, 10), a(2, 11), a(3, 1)]), (33, 0, 3));
    assert_eq!(told(&[a(7, 0), a(1, 10), a(1, 20), a(7, 30)]), (30, 0, 3));
    assert_eq!(told(&[a(0, 0), a(1, 10), a(2, 11), a(3, 12)]), (33, 1, 2));
}

#[test]
fn a_table_of_64() {
    let mut random = Random::new(1, Sort::Profile, 0);
    let table: Vec<Stream> = (0..MOST_STREAMS as u16)
        .map(|i| stream(i as u8, 4 * i, equal_a(4), 3))
        .collect();
    let found = profile(&frame_of(table.clone(), &mut random));
    assert_eq!(found.map(|found| found.number), Ok(0));
    let mut table = table;
    table[63].sad = 4 * 63 - 1;
    let found = profile(&frame_of(table, &mut random)).unwrap();
    assert_eq!((found.number, found.first, found.second), (33, 62, 63));
}

#[test]
fn cases_meet_every_number() {
    let mut met = [0; 34];
    let mut unspoilt = 0;
    for case in 0..4000 {
        let (changes, frame) = profile_case(&mut Random::new(1, Sort::Profile, case));
        let number = profile(&frame).map_or_else(|refusal| refusal, |found| found.number);
        met[usize::from(number)] += 1;
        if !changes.is_empty() && changes.iter().all(|&change| change == Change::Nothing) {
            assert_eq!(number, 0);
            unspoilt += 1;
        }
    }
    assert!(unspoilt > 0);
    assert!(
        [0, 30, 31, 32, 33].iter().all(|&number| met[number] > 50),
        "{met:?}"
    );
}
