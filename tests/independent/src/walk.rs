//! Walking a record, one item a step.

use crate::frame::{fsync1, judge, read, Reading, FRAME, NULL_TRANSMISSION};
use std::ops::{Range, RangeInclusive};

/// What a walk's limit may be: after so many misses in a row the lock is lost.
pub const LIMITS: RangeInclusive<usize> = 1..=8;
/// The refusal number of a limit outside.
pub const LIMIT_OUTSIDE: u8 = 27;

#[derive(Clone, Copy, Debug, PartialEq, Eq)]
pub struct State {
    pub place: usize,
    pub misses: usize,
    pub lock: bool,
    /// Fixed when the walk begins.
    pub limit: usize,
}

impl State {
    /// Hunting at the beginning of a record, unless the limit is refused.
    pub fn begin(limit: usize) -> Result<State, u8> {
        let begun = State {
            place: 0,
            misses: 0,
            lock: false,
            limit,
        };
        begun.has_limit().then_some(begun).ok_or(LIMIT_OUTSIDE)
    }

    fn has_limit(self) -> bool {
        LIMITS.contains(&self.limit)
    }

    /// In lock with misses that would have lost it: only a caller puts this together.
    fn is_spent(self) -> bool {
        self.lock && self.misses >= self.limit
    }

    /// In lock a period on, the misses cleared.
    fn locked_behind(self, place: usize) -> State {
        State {
            place: place + FRAME,
            misses: 0,
            lock: true,
            ..self
        }
    }

    fn after_miss(self) -> State {
        let misses = self.misses + 1;
        let lock = misses < self.limit;
        // A frame may begin inside the last missed period.
        let place = self.place + if lock { FRAME } else { 1 };
        State {
            place,
            misses,
            lock,
            ..self
        }
    }
}

/// An item lives for one step only, so a frame's reading is not boxed.
#[allow(clippy::large_enum_variant)]
#[derive(Clone, Copy, Debug, PartialEq, Eq)]
pub enum Item {
    Frame(usize, Reading),
    /// A lost mark: the place and the refusal number.
    Lost(usize, u8),
    /// A null transmission in lock.
    Idle(usize),
    Done(usize),
}

/// The item found, and the advanced state.
pub fn step(record: &[u8], state: State) -> (Item, State) {
    let done = (Item::Done(state.place), state);
    if !state.has_limit() || state.is_spent() {
        return done;
    }
    if !state.lock {
        return hunt(record, state);
    }
    period(record, state.place).map_or(done, |frame| in_lock(frame, state))
}

/// The item that the step after `n` steps finds, from the beginning of the record.
pub fn nth(record: &[u8], limit: usize, n: usize) -> Result<Item, u8> {
    let begun = State::begin(limit)?;
    let state = (0..n).fold(begun, |state, _| step(record, state).1);
    Ok(step(record, state).0)
}

/// The place's 6,144 bytes exist and the reading accepts them.
pub fn stands(record: &[u8], place: usize) -> bool {
    period(record, place).is_some_and(|frame| judge(frame) == 0)
}

/// The place's 6,144 bytes exist and read as a null transmission.
pub fn is_null(record: &[u8], place: usize) -> bool {
    period(record, place).is_some_and(|frame| judge(frame) == NULL_TRANSMISSION)
}

fn period(record: &[u8], place: usize) -> Option<&[u8]> {
    record.get(place..)?.get(..FRAME)
}

fn in_lock(frame: &[u8], state: State) -> (Item, State) {
    let place = state.place;
    match read(frame) {
        Ok(reading) => (Item::Frame(place, reading), state.locked_behind(place)),
        Err(NULL_TRANSMISSION) => (Item::Idle(place), state.locked_behind(place)),
        Err(number) => (Item::Lost(place, number), state.after_miss()),
    }
}

fn hunt(record: &[u8], state: State) -> (Item, State) {
    // From this place on fewer than 6,144 bytes are left.
    let end = record.len().saturating_sub(FRAME - 1).max(state.place);
    let found = sync_words(record, state.place..end)
        .find(|&place| begins_lock(record, place))
        .and_then(|place| Some((place, read(period(record, place)?).ok()?)));
    match found {
        Some((place, reading)) => (Item::Frame(place, reading), state.locked_behind(place)),
        None => (
            Item::Done(end),
            State {
                place: end,
                ..state
            },
        ),
    }
}

/// Places whose sync word is one of the two: few, and cheap to find.
fn sync_words(record: &[u8], places: Range<usize>) -> impl Iterator<Item = usize> + '_ {
    let start = places.start;
    let searched = record
        .get(start..places.end.saturating_add(3))
        .unwrap_or_default();
    let hits = searched
        .windows(4)
        .enumerate()
        .filter(|(_, head)| fsync1(head).is_some());
    hits.map(move |(n, _)| start + n)
}

/// The place stands, and so does the one a period on with the other sync word.
fn begins_lock(record: &[u8], place: usize) -> bool {
    stands(record, place)
        && stands(record, place + FRAME)
        && fsync1(&record[place..]) != fsync1(&record[place + FRAME..])
}
