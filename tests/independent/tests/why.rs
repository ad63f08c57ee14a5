//! The reasons for places: the customer's sentences, and that each reason occurs in the generator's records.

use independent::frame::FRAME;
use independent::generate::records::record_case;
use independent::generate::{Random, Sort};
use independent::walk::{stands, step, Item, State, LIMITS, LIMIT_OUTSIDE};
use independent::why::{reasons, why, Reason, PLACE_OUTSIDE};

const SEED: u64 = 1;
const RECORDS: u64 = 100;

fn record(case: u64) -> Vec<u8> {
    record_case(&mut Random::new(SEED, Sort::Record, case)).bytes
}

/// The items but for done, each with its place and the reason that it is for it.
fn items(record: &[u8], limit: usize) -> Vec<(usize, Reason)> {
    let mut items = Vec::new();
    let mut state = State::begin(limit).unwrap();
    loop {
        let (item, next) = step(record, state);
        state = next;
        match item {
            Item::Frame(place, _) | Item::Idle(place) => items.push((place, Reason::HandedOut)),
            Item::Lost(place, number) => items.push((place, Reason::Lost(number))),
            Item::Done(_) => return items,
        }
    }
}

/// Handed out and lost exactly where the walk's items say so; stepped over from the last item before the place.
#[test]
fn agrees_with_the_items() {
    for case in 0..RECORDS {
        let record = record(case);
        for limit in LIMITS {
            let items = items(&record, limit);
            let reasons = reasons(&record, limit).unwrap();
            let told: Vec<(usize, Reason)> = (0..reasons.len())
                .filter(|&place| matches!(reasons[place], Reason::HandedOut | Reason::Lost(_)))
                .map(|place| (place, reasons[place]))
                .collect();
            assert_eq!(told, items);
            for (place, reason) in reasons.iter().enumerate() {
                let last = items.iter().rev().find(|item| item.0 <= place);
                match *reason {
                    Reason::SteppedOver(before) => {
                        assert_eq!(last.map(|item| item.0), Some(before))
                    }
                    Reason::NotStanding => assert!(!stands(&record, place + FRAME)),
                    Reason::SameSync => assert!(stands(&record, place + FRAME)),
                    Reason::Refused(_) => assert!(!stands(&record, place)),
                    Reason::HandedOut | Reason::Lost(_) => {}
                }
            }
        }
    }
}

#[test]
fn every_reason_occurs() {
    let mut met = [0u64; 6];
    for case in 0..RECORDS {
        for reason in reasons(&record(case), 3).unwrap() {
            let number = match reason {
                Reason::HandedOut => 0,
                Reason::Lost(_) => 1,
                Reason::Refused(_) => 2,
                Reason::NotStanding => 3,
                Reason::SameSync => 4,
                Reason::SteppedOver(_) => 5,
            };
            met[number] += 1;
        }
    }
    assert!(!met.contains(&0), "{met:?}");
}

/// 27 comes before 34, and a record shorter than a period has no place.
#[test]
fn refusals() {
    let record = vec![0x55; FRAME + 1];
    assert_eq!(why(&record, 3, 1), Ok(Reason::Refused(2)));
    assert_eq!(why(&record, 3, 2), Err(PLACE_OUTSIDE));
    assert_eq!(why(&record[..FRAME - 1], 3, 0), Err(PLACE_OUTSIDE));
    assert_eq!(why(&record, 0, 2), Err(LIMIT_OUTSIDE));
    assert_eq!(why(&record, 9, 0), Err(LIMIT_OUTSIDE));
}
