//! A live line: the record comes in pieces, and the caller keeps only the bytes from the walk's place on.

use super::{Case, Checked, GUARD};
use crate::abi;
use crate::frame::{fsync1, FRAME};
use crate::walk::{stands, step, Item, State, LIMITS};

/// While more bytes may come fewer are kept, hunting; in lock fewer than a period.
const KEPT: usize = 2 * FRAME;
/// Where a line ends.
const LAST: usize = 1 << 63;

/// A caller with his buffer, and beside it this implementation's walk over the whole record, which knows no pieces.
struct Line<'a> {
    record: &'a [u8],
    came: usize,
    /// The bytes that came, from the walk's place on.
    window: Vec<u8>,
    walk: Vec<u8>,
    state: State,
    /// Hunting, no place before it begins a lock, whatever may come.
    settled: usize,
}

impl Line<'_> {
    fn comes(&mut self, piece: usize) {
        let end = (self.came + piece).min(self.record.len());
        self.window.extend(&self.record[self.came..end]);
        self.came = end;
    }

    /// What is before the place that the walk has moved on to is forgotten.
    fn forget(&mut self, before: usize) {
        self.window
            .drain(..abi::state_of(&self.walk).place - before);
    }
}

/// Goes on from `place` as far as no lock can begin; whether one begins there for sure.
fn settle(came: &[u8], place: &mut usize) -> bool {
    while let Some(head) = came.get(*place..*place + FRAME) {
        if fsync1(head).is_some() && stands(came, *place) {
            let Some(next) = came.get(*place + FRAME..*place + KEPT) else {
                return false;
            };
            if stands(next, 0) && fsync1(next) != fsync1(head) {
                return true;
            }
        }
        *place += 1;
    }
    false
}

/// In lock an item is sure with its last byte.
fn is_sure(came: &[u8], state: State, settled: &mut usize) -> bool {
    if state.lock {
        state.place + FRAME <= came.len()
    } else {
        settle(came, settled)
    }
}

impl Case<'_> {
    /// The items told are those of the walk over the whole record, in turn, each as soon as it is sure and not before.
    pub(super) fn by_pieces(&mut self, record: &[u8], limit: usize) -> Checked<()> {
        let what = format!("line with limit {limit}");
        let mut line = Line {
            record,
            came: 0,
            window: Vec::new(),
            walk: self.begun(limit)?,
            state: State::begin(limit).expect("a limit from 1 to 8"),
            settled: 0,
        };
        let one = self.one_length();
        // The caller may learn that the line has ended behind its last piece only.
        let told_late = self.random.one_in(2);
        let mut more = true;
        loop {
            more &= told_late || line.came < record.len();
            let before = abi::state_of(&line.walk);
            line.walk = self.called(&what, &line.window, u8::from(more), &line.walk)?;
            let inside = (before.place..=line.came).contains(&abi::state_of(&line.walk).place);
            self.same("line: inside the window", &inside, &true)?;
            if abi::item_of(&line.walk).0 == abi::MORE_ITEM {
                self.same("line: more may come", &more, &true)?;
                self.more_wanted(&what, &mut line, before)?;
                more = line.came < record.len();
                let any = self.length();
                line.comes(one.unwrap_or(any));
            } else if self.item_told(&what, &mut line, before, more)? {
                return self.stays_done(&line);
            }
            line.forget(before.place);
        }
    }

    /// Pieces of one length, or of any.
    fn one_length(&mut self) -> Option<usize> {
        if self.random.one_in(160) {
            return Some(self.random.pick(&[1, 7]));
        }
        match self.length() {
            0 => None,
            length => Some(length),
        }
    }

    /// A piece's length, now and then nothing at all.
    fn length(&mut self) -> usize {
        let (few, any) = (self.random.within(1, 400), self.random.within(1, 20_000));
        let frames = [FRAME - 1, FRAME, FRAME + 1, KEPT - 1, KEPT, KEPT + 1];
        self.random
            .pick(&[&frames[..], &[0, 188, few, any, any]].concat())
    }

    /// The walk's bytes after a call that accepts them; those around them stay.
    fn called(&mut self, what: &str, window: &[u8], more: u8, walk: &[u8]) -> Checked<Vec<u8>> {
        let guard = self.random.bytes(GUARD);
        let mut bytes = [&guard[..], walk, &guard].concat();
        let number = abi::live(window, more, &mut bytes[GUARD..GUARD + walk.len()]);
        self.same(what, &number, &0)?;
        let walk = bytes[GUARD..GUARD + walk.len()].to_vec();
        self.same(what, &bytes, &[&guard[..], &walk, &guard].concat())?;
        Ok(walk)
    }

    /// Nothing is sure yet; nothing is forgotten that may still matter, and few bytes are kept.
    fn more_wanted(&mut self, what: &str, line: &mut Line, before: State) -> Checked<()> {
        self.tally.live_waits += 1;
        let sure = is_sure(&line.record[..line.came], before, &mut line.settled);
        self.same("line: nothing is sure", &sure, &false)?;
        self.wanted(what, &line.walk, before, line.came, line.settled)
    }

    /// The bytes that say that more is wanted: of the state only the place moves on.
    fn wanted(
        &mut self,
        what: &str,
        walk: &[u8],
        before: State,
        end: usize,
        settled: usize,
    ) -> Checked<()> {
        let place = abi::state_of(walk).place;
        let state = abi::state_bytes(State { place, ..before });
        let item = [
            &[abi::MORE_ITEM, 0][..],
            &(place as u64).to_be_bytes(),
            &[0, 0],
        ]
        .concat();
        self.same(what, walk, &[state, item].concat())?;
        let (least, most, kept) = if before.lock {
            (before.place, before.place, FRAME)
        } else {
            (before.place, settled, KEPT)
        };
        let forgotten = (least..=most).contains(&place);
        self.same("line: what is forgotten is settled", &forgotten, &true)?;
        self.same("line: few are kept", &(end - place < kept), &true)
    }

    /// The item that comes next in the record, and the state behind it, once it is sure; whether it is done.
    fn item_told(
        &mut self,
        what: &str,
        line: &mut Line,
        before: State,
        more: bool,
    ) -> Checked<bool> {
        self.tally.live_items += 1;
        let (item, next) = step(line.record, line.state);
        self.same(what, &line.walk[..], &abi::walk_bytes(&item, next))?;
        let done = matches!(item, Item::Done(_));
        let came = &line.record[..line.came];
        let sure = if done {
            !more
        } else {
            is_sure(came, before, &mut line.settled)
        };
        self.same("line: the item is sure", &sure, &true)?;
        let (_, place) = abi::item_of(&line.walk);
        let there = done || before.place <= place && place + FRAME <= line.came;
        self.same("line: the item's bytes are in the window", &there, &true)?;
        line.state = next;
        line.settled = next.place;
        Ok(done)
    }

    fn stays_done(&mut self, line: &Line) -> Checked<()> {
        let place = abi::state_of(&line.walk).place;
        let left = &line.record[place.min(line.came)..line.came];
        let expected = Ok(line.walk.clone());
        self.expect("line: done again", line.walk.clone(), expected, |walk| {
            abi::live(left, 0, walk)
        })?;
        Ok(())
    }

    /// A window at any place of a line, and a state that need not be reachable.
    pub(super) fn any_line(&mut self, record: &[u8]) -> Checked<()> {
        let from = self.any_place(record.len()).min(record.len());
        let window = &record[from..(from + self.length()).min(record.len())];
        let near = LAST - window.len() - self.random.pick(&[0, 1, 2, FRAME]);
        let beyond = LAST + self.random.pick(&[0, 1, LAST - 1]);
        let reaching = LAST - self.random.within(0, window.len());
        let place = self.random.pick(&[from, from, near, reaching, beyond]);
        let state = self.state_at(place);
        let walk = [abi::state_bytes(state), self.random.bytes(abi::TOLD)].concat();
        let more = self.random.below(2) as u8;
        match self.random.below(8) {
            0 => self.refused_line(window, more, walk),
            _ => self.line_from(window, state, more, walk),
        }
    }

    /// 1 for a length, whatever the bytes are; else 12 for a lock byte or a `more` above 1.
    fn refused_line(&mut self, window: &[u8], mut more: u8, mut walk: Vec<u8>) -> Checked<()> {
        self.tally.live_refused += 1;
        let length = self.random.pick(&[0, 10, 11, 21, 22, 24, 46]);
        let wide = self.random.pick(&[2, 3, 128, 255]);
        match self.random.below(3) {
            0 => walk[9] = wide,
            1 => more = wide,
            _ => (walk[9], more) = (wide, self.random.byte()),
        }
        let mut number = 12;
        if self.random.one_in(2) {
            walk.resize(length, 2);
            number = 1;
        }
        self.expect("refused line", walk, Err(number), |walk| {
            abi::live(window, more, walk)
        })?;
        Ok(())
    }

    /// What the window as a record would give, counted from the line's beginning, but for a done while more may come.
    fn line_from(&mut self, window: &[u8], state: State, more: u8, walk: Vec<u8>) -> Checked<()> {
        self.tally.live_states += 1;
        let what = format!("line of {} bytes from {state:?}, more {more}", window.len());
        let walk = self.called(&what, window, more, &walk)?;
        if is_over(state, window.len()) {
            let done = abi::walk_bytes(&Item::Done(state.place), state);
            return self.same(&what, &walk, &done);
        }
        let (item, next) = step(window, State { place: 0, ..state });
        if more == 1 && matches!(item, Item::Done(_)) {
            let mut settled = 0;
            settle(window, &mut settled);
            let end = state.place + window.len();
            return self.wanted(&what, &walk, state, end, state.place + settled);
        }
        let place = state.place + next.place;
        let told = abi::walk_bytes(&further(item, state.place), State { place, ..next });
        self.same(&what, &walk, &told)
    }
}

/// No walk goes on from there, whatever may come.
fn is_over(state: State, length: usize) -> bool {
    let spent = state.lock && state.misses >= state.limit;
    spent || !LIMITS.contains(&state.limit) || state.place.saturating_add(length) >= LAST
}

fn further(item: Item, by: usize) -> Item {
    match item {
        Item::Frame(place, reading) => Item::Frame(place + by, reading),
        Item::Lost(place, number) => Item::Lost(place + by, number),
        Item::Idle(place) => Item::Idle(place + by),
        Item::Done(place) => Item::Done(place + by),
    }
}
