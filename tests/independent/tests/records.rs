//! The generator's records hold what the walk is to be tried with.

use independent::frame::{FRAME, LOGICAL};
use independent::generate::records::{record_case, Record};
use independent::generate::{Random, Sort};
use independent::walk::{is_null, stands, step, Item, State, LIMITS};
use std::ops::Range;

const SEED: u64 = 1;
const RECORDS: u64 = 1000;

/// A record, and the items of its walk with the limit, each with the state before it.
struct Walked {
    limit: usize,
    record: Record,
    items: Vec<(State, Item)>,
}

fn walked(case: u64, limit: usize) -> Walked {
    let record = record_case(&mut Random::new(SEED, Sort::Record, case));
    let mut items = Vec::new();
    let mut state = State::begin(limit).unwrap();
    loop {
        let (item, next) = step(&record.bytes, state);
        items.push((state, item));
        if let Item::Done(_) = item {
            return Walked {
                limit,
                record,
                items,
            };
        }
        state = next;
    }
}

fn place(item: &Item) -> usize {
    match *item {
        Item::Frame(place, _) | Item::Lost(place, _) | Item::Idle(place) | Item::Done(place) => {
            place
        }
    }
}

impl Walked {
    fn bytes(&self) -> &[u8] {
        &self.record.bytes
    }

    fn has(&self, wanted: impl Fn(&State, &Item) -> bool) -> bool {
        self.items.iter().any(|(before, item)| wanted(before, item))
    }

    /// Idle items in a row, as many as `many` has.
    fn idle(&self, many: Range<usize>) -> bool {
        self.items
            .split(|(_, item)| !matches!(item, Item::Idle(_)))
            .any(|row| many.contains(&row.len()))
    }

    /// A lost mark with this number, of a null transmission but for sync word or status byte.
    fn lost_null(&self, number: u8) -> bool {
        self.has(|_, item| matches!(item, Item::Lost(place, n) if *n == number && self.is_null_but_for_its_start(*place)))
    }

    fn is_null_but_for_its_start(&self, place: usize) -> bool {
        self.bytes()[place + LOGICAL..].starts_with(&[0xFF; 4])
    }

    /// A null transmission in lock, of which bytes are missing at the record's end.
    fn cut_short(&self) -> bool {
        self.has(|before, item| {
            let there = before.lock && place(item) + LOGICAL < self.bytes().len();
            matches!(item, Item::Done(place) if there && self.is_null_but_for_its_start(*place))
        })
    }

    /// A place like this, hunted over by one of the first `steps` steps.
    fn hunted(&self, steps: usize, like: impl Fn(usize) -> bool) -> bool {
        let hunts = self.items.iter().take(steps).filter(|(s, _)| !s.lock);
        hunts
            .map(|(before, item)| before.place..place(item))
            .any(|mut places| places.any(&like))
    }

    /// A null transmission less than a period behind one that the lock is on.
    fn stray(&self) -> bool {
        self.has(|before, item| {
            let behind = place(item) + 1..place(item) + FRAME;
            before.lock && behind.into_iter().any(|p| is_null(self.bytes(), p))
        })
    }

    /// A null transmission that reaches into the frames at the record's end.
    fn overhung(&self) -> bool {
        self.record.run.is_some_and(|run| {
            let before = run.start.saturating_sub(FRAME - 1)..run.start;
            before.into_iter().any(|p| is_null(self.bytes(), p))
        })
    }

    /// In lock with one miss fewer than the limit, an item like this.
    fn at_the_limit(&self, like: impl Fn(&Item) -> bool) -> bool {
        self.has(|before, item| before.lock && before.misses + 1 == self.limit && like(item))
    }

    /// Of the frames at the record's end those before this one are not handed out.
    fn first_of_the_last(&self, n: usize) -> bool {
        let out = |place| self.has(|_, item| matches!(item, Item::Frame(p, _) if *p == place));
        self.record.run.is_some_and(|run| {
            let mut last = (0..run.frames).map(|n| run.start + n * FRAME);
            last.position(out) == Some(n)
        })
    }
}

type Wanted = (&'static str, fn(&Walked) -> bool);

#[rustfmt::skip]
const NIGHTS: [Wanted; 12] = [
    ("a single idle item", |w| w.idle(1..2)),
    ("several idle items", |w| w.idle(2..4)),
    ("many idle items", |w| w.idle(7..100)),
    ("an idle item that clears misses", |w| w.has(|s, item| s.misses > 0 && s.lock && matches!(item, Item::Idle(_)))),
    ("an idle item at the very end", |w| w.has(|_, item| matches!(item, Item::Idle(p) if p + FRAME == w.bytes().len()))),
    ("a null transmission cut short", Walked::cut_short),
    ("one with a damaged sync word", |w| w.lost_null(2)),
    ("one with a damaged status byte", |w| w.lost_null(3)),
    ("one before the first frame", |w| w.hunted(1, |p| is_null(w.bytes(), p))),
    ("one that does not confirm a frame", |w| w.hunted(usize::MAX, |p| stands(w.bytes(), p) && is_null(w.bytes(), p + FRAME))),
    ("one off the lock's phase", Walked::stray),
    ("one that overhangs the last frames", Walked::overhung),
];

#[rustfmt::skip]
const EDGES: [Wanted; 4] = [
    ("the lock is lost", |w| w.at_the_limit(|item| matches!(item, Item::Lost(..)))),
    ("a frame keeps the lock", |w| w.at_the_limit(|item| matches!(item, Item::Frame(..)))),
    ("a null transmission keeps the lock", |w| w.at_the_limit(|item| matches!(item, Item::Idle(_)))),
    ("the m-th of the last frames is the first handed out", |w| w.first_of_the_last(w.limit - 1)),
];

/// Each of these is met in walks with the limit.
fn all_occur(wanted: &[Wanted], limit: usize) {
    let mut met = vec![0; wanted.len()];
    for case in 0..RECORDS {
        let walked = walked(case, limit);
        for (count, (_, occurs)) in met.iter_mut().zip(wanted) {
            *count += u64::from(occurs(&walked));
        }
    }
    for (count, (what, _)) in met.iter().zip(wanted) {
        println!("limit {limit}, {what}: {count} of {RECORDS} records");
        assert!(*count > 0);
    }
}

#[test]
fn nights_occur() {
    all_occur(&NIGHTS, 3);
}

#[test]
fn the_edges_of_every_limit_occur() {
    for limit in LIMITS {
        all_occur(&EDGES, limit);
    }
}
