//! One case through the proved exports and through this implementation.

mod chains;
mod lines;
mod logs;
mod looks;
mod packets;
mod pieces;
mod profiles;
mod reasons;
mod signals;

use crate::abi;
use crate::frame::{
    fic_part, main_stream_part, read, stream_part, Reading, Stream, Timestamp, FRAME, MOST_STREAMS,
};
use crate::generate::frames::frame_case;
use crate::generate::records::{record_case, Record, Run};
use crate::generate::writings::{writing_case, Writing};
use crate::generate::{Random, Sort};
use crate::relay::relay;
use crate::sum::sum;
use crate::walk::{is_null, nth, stands, step, Item, State, LIMITS, LIMIT_OUTSIDE};
use crate::writing::{write, PADDING};
use std::fmt::Debug;
use std::ops::AddAssign;

/// Random bytes kept on both sides of each lent buffer.
const GUARD: usize = 16;
/// How far beyond the end of a walk an item is asked for.
const MOST_BEYOND: usize = 2000;
/// Limits outside 1 to 8, some of which are inside after narrowing.
const OUTSIDE: [usize; 6] = [0, 9, 255, 256 + 3, (1 << 32) + 3, usize::MAX];

pub struct Mismatch {
    pub kind: String,
    pub what: String,
    pub proved: String,
    pub independent: String,
}

#[derive(Clone)]
pub struct Tally {
    pub frames: u64,
    pub writings: u64,
    pub records: u64,
    /// Cases by the number they got.
    pub numbers: [u64; 14],
    /// Items by their kind.
    pub items: [u64; 4],
    /// Locks lost, by the walk's limit; at 0, limits refused.
    pub limits: [u64; 9],
    /// Tests put to places, over all walks.
    pub looks: u64,
    /// Items that lines told, and how often they wanted a piece more.
    pub live_items: u64,
    pub live_waits: u64,
    /// Calls from any state, and those refused.
    pub live_states: u64,
    pub live_refused: u64,
    pub chains: u64,
    /// Over all chains: the relays, those that met a wrong sum, and the chains in which nothing was damaged.
    pub relays: u64,
    pub wrong_sums: u64,
    pub undamaged: u64,
    /// Records whose every place was asked about.
    pub every_place: u64,
    /// Reasons by their number, by the walk's limit, and refusals: limits, places.
    pub reasons: [u64; 6],
    pub why_limits: [u64; 8],
    pub why_refused: [u64; 2],
    pub profiles: u64,
    /// Profiles by their number.
    pub profile_numbers: [u64; 34],
    pub signals: u64,
    /// Messages, at 0, and drops and refusals of signalling by their number.
    pub signal_numbers: [u64; 37],
    pub packets: u64,
    /// Packets by their number.
    pub packet_numbers: [u64; 36],
    /// Packets that were cut at every byte.
    pub packets_cut: u64,
    pub logs: u64,
    /// Answers about logs and sheets by their number.
    pub log_numbers: [u64; 38],
    /// Logs added in parts, made bad at every byte, and written from a walk's items.
    pub logs_in_parts: u64,
    pub logs_bad_everywhere: u64,
    pub logs_of_walks: u64,
    pub lines: u64,
    /// Answers about leased lines by their number: frames out and back, rows told, frames made again.
    pub lines_out: [u64; 24],
    pub lines_back: [u64; 13],
    pub lines_told: [u64; 13],
    pub lines_again: [u64; 24],
    /// Check bytes given, refused; rows that are not clean, refused, clean.
    pub check_bytes: [u64; 2],
    pub rows: [u64; 3],
}

impl Default for Tally {
    fn default() -> Tally {
        Tally {
            frames: 0,
            writings: 0,
            records: 0,
            numbers: [0; 14],
            items: [0; 4],
            limits: [0; 9],
            looks: 0,
            live_items: 0,
            live_waits: 0,
            live_states: 0,
            live_refused: 0,
            chains: 0,
            relays: 0,
            wrong_sums: 0,
            undamaged: 0,
            every_place: 0,
            reasons: [0; 6],
            why_limits: [0; 8],
            why_refused: [0; 2],
            profiles: 0,
            profile_numbers: [0; 34],
            signals: 0,
            signal_numbers: [0; 37],
            packets: 0,
            packet_numbers: [0; 36],
            packets_cut: 0,
            logs: 0,
            log_numbers: [0; 38],
            logs_in_parts: 0,
            logs_bad_everywhere: 0,
            logs_of_walks: 0,
            lines: 0,
            lines_out: [0; 24],
            lines_back: [0; 13],
            lines_told: [0; 13],
            lines_again: [0; 24],
            check_bytes: [0; 2],
            rows: [0; 3],
        }
    }
}

impl AddAssign<&Tally> for Tally {
    fn add_assign(&mut self, other: &Tally) {
        self.frames += other.frames;
        self.writings += other.writings;
        self.records += other.records;
        add_each(&mut self.numbers, &other.numbers);
        add_each(&mut self.items, &other.items);
        add_each(&mut self.limits, &other.limits);
        self.looks += other.looks;
        self.live_items += other.live_items;
        self.live_waits += other.live_waits;
        self.live_states += other.live_states;
        self.live_refused += other.live_refused;
        self.chains += other.chains;
        self.relays += other.relays;
        self.wrong_sums += other.wrong_sums;
        self.undamaged += other.undamaged;
        self.every_place += other.every_place;
        add_each(&mut self.reasons, &other.reasons);
        add_each(&mut self.why_limits, &other.why_limits);
        add_each(&mut self.why_refused, &other.why_refused);
        self.profiles += other.profiles;
        add_each(&mut self.profile_numbers, &other.profile_numbers);
        self.signals += other.signals;
        add_each(&mut self.signal_numbers, &other.signal_numbers);
        self.packets += other.packets;
        add_each(&mut self.packet_numbers, &other.packet_numbers);
        self.packets_cut += other.packets_cut;
        self.logs += other.logs;
        add_each(&mut self.log_numbers, &other.log_numbers);
        self.logs_in_parts += other.logs_in_parts;
        self.logs_bad_everywhere += other.logs_bad_everywhere;
        self.logs_of_walks += other.logs_of_walks;
        self.lines += other.lines;
        add_each(&mut self.lines_out, &other.lines_out);
        add_each(&mut self.lines_back, &other.lines_back);
        add_each(&mut self.lines_told, &other.lines_told);
        add_each(&mut self.lines_again, &other.lines_again);
        add_each(&mut self.check_bytes, &other.check_bytes);
        add_each(&mut self.rows, &other.rows);
    }
}

fn add_each(to: &mut [u64], from: &[u64]) {
    for (count, more) in to.iter_mut().zip(from) {
        *count += more;
    }
}

/// A case under way: its own number, its random numbers, its kind for a report, and what is counted.
struct Case<'a> {
    number: u64,
    random: Random,
    kind: String,
    tally: &'a mut Tally,
}

type Checked<T> = Result<T, Box<Mismatch>>;
/// What an export has to answer: bytes, or a refusal.
type Expected = Result<Vec<u8>, u8>;

pub fn check(sort: Sort, seed: u64, number: u64, tally: &mut Tally) -> Checked<()> {
    let mut case = Case {
        number,
        random: Random::new(seed, sort, number),
        kind: String::new(),
        tally,
    };
    match sort {
        Sort::Frame => case.frame(),
        Sort::Writing => case.writing(),
        Sort::Record => case.record(),
        Sort::Signals => case.signals(),
        Sort::Chain => case.chain(),
        Sort::Places => case.every_place(),
        Sort::Profile => case.profile(),
        Sort::Packet => case.packet(),
        Sort::Log => case.log(),
        Sort::Line => case.line(),
    }
}

impl Case<'_> {
    fn frame(&mut self) -> Checked<()> {
        let (faults, frame) = frame_case(&mut self.random);
        self.kind = format!("frame with faults {faults:?}");
        self.tally.frames += 1;
        let reading = read(&frame);
        self.count(reading.err().unwrap_or(0));
        self.sums(&frame)?;
        let answer = self.read(&frame, reading)?;
        self.fic(&frame)?;
        self.streams(&frame)?;
        self.relayed(&frame)?;
        match reading {
            Ok(reading) => self.written_again(&frame, &reading, &answer),
            Err(_) => Ok(()),
        }
    }

    fn count(&mut self, number: u8) {
        self.tally.numbers[usize::from(number)] += 1;
    }

    fn sums(&mut self, bytes: &[u8]) -> Checked<()> {
        let end = self.random.within(0, bytes.len());
        let start = self.random.within(0, end);
        let part = &bytes[start..end];
        let expected = sum(part);
        self.same("boot loader's sum", &abi::boot_sum(part), &expected)?;
        self.same("sum", &abi::sum(part), &expected)
    }

    fn read(&mut self, frame: &[u8], reading: Result<Reading, u8>) -> Checked<Vec<u8>> {
        let expected = reading.map(|reading| abi::answer_bytes(&reading));
        self.answer("read", abi::ANSWER, expected, |answer| {
            abi::read(frame, answer)
        })
    }

    fn fic(&mut self, frame: &[u8]) -> Checked<()> {
        let expected = fic_part(frame).map(abi::part_bytes);
        self.answer("fic", abi::PART, expected, |answer| abi::fic(frame, answer))?;
        Ok(())
    }

    /// Every stream, and indices at and beyond NST, some of which are small after narrowing.
    fn streams(&mut self, frame: &[u8]) -> Checked<()> {
        let nst = frame.get(5).map_or(0, |byte| usize::from(byte & 0x7F));
        let beyond = [nst + 1, 63, 64, nst + 256, 1 << 16, 1 << 32, usize::MAX];
        let accepted = main_stream_part(frame).is_ok();
        let every = if accepted { 0..=nst } else { nst..=nst };
        for index in every.chain(beyond) {
            let expected = stream_part(frame, index).map(abi::part_bytes);
            let what = format!("stream {index}");
            self.answer(&what, abi::PART, expected, |answer| {
                abi::stream(frame, index, answer)
            })?;
        }
        if accepted {
            self.count(13);
        }
        Ok(())
    }

    /// Into an output of the right length, and now and then of another: reading's number comes first.
    fn relayed(&mut self, frame: &[u8]) -> Checked<()> {
        let other = self.random.pick(&[0, 1, FRAME - 1, FRAME + 1, 2 * FRAME]);
        let length = if self.random.one_in(16) { other } else { FRAME };
        let mut out = vec![0; length];
        let number = relay(frame, &mut out);
        let expected = if number == 0 { Ok(out) } else { Err(number) };
        self.fresh("relay", length, expected, |out| abi::relay(frame, out))?;
        Ok(())
    }

    /// Read then written: the same bytes return, if the frame is clean.
    fn written_again(&mut self, frame: &[u8], reading: &Reading, answer: &[u8]) -> Checked<()> {
        let carried = (usize::from(reading.header.fl) + 4) * 4;
        let main = main_stream_part(frame).unwrap_or_default();
        let main_sum = sum(&frame[main.clone()]).to_be_bytes();
        let clean = frame[main.end..main.end + 2] == main_sum
            && frame[carried..].iter().all(|&byte| byte == PADDING);
        if !clean {
            return Ok(());
        }
        let fields = abi::fields_of_answer(answer);
        let expected = Ok(frame.to_vec());
        self.fresh("written again", FRAME, expected, |out| {
            abi::write(&fields, &frame[main], out)
        })?;
        Ok(())
    }

    fn writing(&mut self) -> Checked<()> {
        let writing = writing_case(&mut self.random);
        self.kind = format!("writing with faults {:?}", writing.faults);
        self.tally.writings += 1;
        let mut out = vec![0; writing.out_length];
        let number = write(&writing.fields, &writing.main, &mut out);
        self.count(number);
        let fields = self.varied(&writing);
        let expected = if number == 0 { Ok(out) } else { Err(number) };
        let written = self.fresh("write", writing.out_length, expected, |out| {
            abi::write(&fields, &writing.main, out)
        })?;
        self.fields_of_other_length(&fields, &writing)?;
        if number != 0 {
            return Ok(());
        }
        self.read_again(&written, &writing)
    }

    /// The field bytes, with other bytes where they mean the same.
    fn varied(&mut self, writing: &Writing) -> Vec<u8> {
        let mut bytes = abi::fields_bytes(&writing.fields);
        for flag in [1, 3] {
            bytes[flag] *= self.random.within(1, 255) as u8;
        }
        match writing.fields.timestamp {
            Timestamp::None => self.random.fill(&mut bytes[13..17]),
            Timestamp::Time(_) => {}
            Timestamp::Reserved(_) => bytes[12] = self.random.within(2, 255) as u8,
        }
        bytes
    }

    fn fields_of_other_length(&mut self, fields: &[u8], writing: &Writing) -> Checked<()> {
        if !self.random.one_in(16) {
            return Ok(());
        }
        let mut fields = fields.to_vec();
        fields.resize(self.random.pick(&[0, 17, 400, 402, 500]), 0);
        let what = "write, fields of other length";
        self.fresh(what, writing.out_length, Err(1), |out| {
            abi::write(&fields, &writing.main, out)
        })?;
        Ok(())
    }

    /// Written then read: the fields return.
    fn read_again(&mut self, written: &[u8], writing: &Writing) -> Checked<()> {
        let answer = self.read(written, read(written))?;
        let mut fields = writing.fields;
        fields.table[usize::from(fields.nst).min(MOST_STREAMS)..].fill(Stream::default());
        let returned = abi::fields_of_answer(&answer);
        self.same("fields read again", &returned, &abi::fields_bytes(&fields))
    }

    fn record(&mut self) -> Checked<()> {
        let record = record_case(&mut self.random);
        self.kind = format!("record, {}", record.kind);
        self.tally.records += 1;
        for limit in LIMITS {
            self.record_within(&record, limit)?;
        }
        for limit in OUTSIDE {
            self.limit_outside(&record.bytes, limit)?;
        }
        // All zero, a walk has limit 0.
        let zeros = vec![0; abi::WALK];
        let state = abi::state_of(&zeros);
        self.step(&record.bytes, zeros, state)?;
        for _ in 0..8 {
            self.any_state(&record.bytes)?;
            self.any_line(&record.bytes)?;
        }
        self.some_places(&record.bytes)
    }

    /// The record's walk with a limit from 1 to 8.
    fn record_within(&mut self, record: &Record, limit: usize) -> Checked<()> {
        let (frames, items) = self.walk(&record.bytes, limit)?;
        self.any_item(&record.bytes, limit, items)?;
        self.looked(&record.bytes, limit)?;
        self.by_pieces(&record.bytes, limit)?;
        match record.run {
            Some(run) => self.run_is_handed_out(&record.bytes, run, limit, &frames),
            None => Ok(()),
        }
    }

    fn limit_outside(&mut self, record: &[u8], limit: usize) -> Checked<()> {
        self.tally.limits[0] += 1;
        self.begun(limit)?;
        self.looked(record, limit)?;
        let n = self.random.pick(&[0, 1, usize::MAX]);
        self.item(record, limit, n, nth(record, limit, n))
    }

    fn begun(&mut self, limit: usize) -> Checked<Vec<u8>> {
        let expected = State::begin(limit).map(abi::begun_bytes);
        self.answer(
            &format!("begin with limit {limit}"),
            abi::WALK,
            expected,
            |walk| abi::begin(limit, walk),
        )
    }

    /// The whole walk and one step more; the places of its frames, and how many items it has.
    fn walk(&mut self, record: &[u8], limit: usize) -> Checked<(Vec<usize>, usize)> {
        let mut walk = self.begun(limit)?;
        let mut frames = Vec::new();
        let mut items = 0;
        let mut refused_in_a_row = 0;
        loop {
            let before = abi::state_of(&walk);
            walk = self.step(record, walk, before)?;
            let (kind, place) = abi::item_of(&walk);
            self.tally.items[usize::from(kind)] += 1;
            if kind == abi::DONE_ITEM {
                self.step(record, walk.clone(), abi::state_of(&walk))?;
                return Ok((frames, items));
            }
            items += 1;
            if kind == abi::FRAME_ITEM {
                frames.push(place);
            }
            // An idle item's refusal is 4, which does not count.
            refused_in_a_row = (refused_in_a_row + 1) * usize::from(kind == abi::LOST_ITEM);
            self.one_item_a_period(before, place, refused_in_a_row, &walk)?;
        }
    }

    /// An item by its number: the first, any, the last, some beyond the end, or the largest number, which must not take its steps.
    fn any_item(&mut self, record: &[u8], limit: usize, items: usize) -> Checked<()> {
        let any = self.random.within(0, items);
        let beyond = items + self.random.within(1, MOST_BEYOND);
        let last = items.saturating_sub(1);
        let n = self.random.pick(&[0, any, last, items, beyond, usize::MAX]);
        // Done stays done, so this implementation need not take its steps either.
        self.item(record, limit, n, nth(record, limit, n.min(beyond)))
    }

    fn item(
        &mut self,
        record: &[u8],
        limit: usize,
        n: usize,
        item: Result<Item, u8>,
    ) -> Checked<()> {
        let what = format!("item {n} with limit {limit}");
        let expected = item.map(|item| abi::item_bytes(&item));
        self.answer(&what, abi::ITEM, expected, |answer| {
            abi::nth(record, limit, n, answer)
        })?;
        Ok(())
    }

    fn step(&mut self, record: &[u8], walk: Vec<u8>, state: State) -> Checked<Vec<u8>> {
        let (item, next) = step(record, state);
        let expected = Ok(abi::walk_bytes(&item, next));
        self.expect("step", walk, expected, |walk| abi::step(record, walk))
    }

    /// In lock each item is of the period at hand, until as many in a row as the limit are refused for a reason other than 4.
    fn one_item_a_period(
        &mut self,
        before: State,
        place: usize,
        refused_in_a_row: usize,
        walk: &[u8],
    ) -> Checked<()> {
        if !before.lock {
            return Ok(());
        }
        self.same("place of an item in lock", &place, &before.place)?;
        let lock = refused_in_a_row < before.limit;
        self.tally.limits[before.limit] += u64::from(!lock);
        let next = place + if lock { FRAME } else { 1 };
        let state = abi::state_of(walk);
        self.same("period behind", &(state.place, state.lock), &(next, lock))
    }

    /// A step from a state that need not be reachable.
    fn any_state(&mut self, record: &[u8]) -> Checked<()> {
        let mut walk = self.random.bytes(abi::WALK);
        let place = self.any_place(record.len());
        let state = self.state_at(place);
        walk[..abi::STATE].copy_from_slice(&abi::state_bytes(state));
        match self.random.below(8) {
            0 => {
                walk[9] = self.random.pick(&[2, 3, 128, 255]);
                self.refused_step(record, walk, 12)
            }
            1 => {
                // The length is looked at before the lock byte.
                walk[9] = self.random.pick(&[0, 1, 2, 255]);
                walk.resize(self.random.pick(&[0, 10, 11, 21, 22, 24, 46]), 2);
                self.refused_step(record, walk, 1)
            }
            _ => self.step(record, walk, state).map(|_| ()),
        }
    }

    fn state_at(&mut self, place: usize) -> State {
        let (any, limit) = (usize::from(self.random.byte()), self.any_limit());
        State {
            place,
            misses: self
                .random
                .pick(&[0, 1, limit.saturating_sub(1), limit, 8, 9, 255, any]),
            lock: self.random.one_in(2),
            limit,
        }
    }

    fn refused_step(&mut self, record: &[u8], walk: Vec<u8>, number: u8) -> Checked<()> {
        self.expect("refused step", walk, Err(number), |walk| {
            abi::step(record, walk)
        })?;
        Ok(())
    }

    /// A limit that a byte holds, mostly one from 1 to 8.
    fn any_limit(&mut self) -> usize {
        let (inside, any) = (self.random.within(1, 8), usize::from(self.random.byte()));
        self.random
            .pick(&[inside, inside, inside, inside, inside, 0, 9, 255, any])
    }

    fn any_place(&mut self, length: usize) -> usize {
        let inside = self.random.within(0, length);
        let period = inside / FRAME * FRAME;
        let near = length.saturating_sub(FRAME) + self.random.below(3);
        let large = usize::MAX - self.random.below(2 * FRAME);
        let any = self.random.number() as usize;
        let choices = [inside, period, period, near, length, large, any, usize::MAX];
        self.random.pick(&choices)
    }

    /// Whatever came before, with limit m a run's m-th frame and all behind it are handed out, if
    /// there is one behind it. Where a place less than a period before the run reads as a frame or
    /// a null transmission, a lock on it reaches into the m-th frame; then it is the next.
    fn run_is_handed_out(
        &mut self,
        record: &[u8],
        run: Run,
        limit: usize,
        frames: &[usize],
    ) -> Checked<()> {
        let before = run.start.saturating_sub(FRAME - 1)..run.start;
        let overhung = before
            .into_iter()
            .any(|place| stands(record, place) || is_null(record, place));
        let first = if overhung { limit } else { limit - 1 };
        let last = run.frames - 1;
        if first >= last {
            return Ok(());
        }
        let due: Vec<usize> = (first..=last).map(|n| run.start + n * FRAME).collect();
        let found: Vec<usize> = due.iter().copied().filter(|p| frames.contains(p)).collect();
        self.same("frames of a run handed out", &found, &due)
    }

    /// An answer into bytes of the right length, and now and then of another, which is refused with 1
    /// unless a limit was refused before.
    fn answer(
        &mut self,
        what: &str,
        length: usize,
        expected: Expected,
        call: impl Fn(&mut [u8]) -> u8,
    ) -> Checked<Vec<u8>> {
        if self.random.one_in(32) {
            let any = self.random.below(2 * length);
            let other = self.random.pick(&[0, length - 1, length + 1, any]);
            let outside = expected == Err(LIMIT_OUTSIDE);
            let number = if outside { LIMIT_OUTSIDE } else { 1 };
            if other != length {
                self.fresh(what, other, Err(number), &call)?;
            }
        }
        self.fresh(what, length, expected, call)
    }

    /// Lends random bytes.
    fn fresh(
        &mut self,
        what: &str,
        length: usize,
        expected: Expected,
        call: impl FnOnce(&mut [u8]) -> u8,
    ) -> Checked<Vec<u8>> {
        let lent = self.random.bytes(length);
        self.expect(what, lent, expected, call)
    }

    /// Lends the bytes to the call: its number and every byte, also around them, must be as expected.
    fn expect(
        &mut self,
        what: &str,
        lent: Vec<u8>,
        expected: Expected,
        call: impl FnOnce(&mut [u8]) -> u8,
    ) -> Checked<Vec<u8>> {
        let guard = self.random.bytes(GUARD);
        let mut bytes = [&guard[..], &lent, &guard].concat();
        let number = call(&mut bytes[GUARD..GUARD + lent.len()]);
        let expected_number = *expected.as_ref().err().unwrap_or(&0);
        self.same(what, &number, &expected_number)?;
        let inside = expected.unwrap_or(lent);
        let expected_bytes = [&guard[..], &inside, &guard].concat();
        if bytes != expected_bytes {
            return Err(self.mismatch(what, hex(&bytes), hex(&expected_bytes)));
        }
        Ok(inside)
    }

    fn same<T: PartialEq + Debug + ?Sized>(&self, what: &str, proved: &T, own: &T) -> Checked<()> {
        if proved == own {
            return Ok(());
        }
        Err(self.mismatch(what, format!("{proved:?}"), format!("{own:?}")))
    }

    fn mismatch(&self, what: &str, proved: String, independent: String) -> Box<Mismatch> {
        Box::new(Mismatch {
            kind: self.kind.clone(),
            what: what.to_string(),
            proved,
            independent,
        })
    }
}

fn hex(bytes: &[u8]) -> String {
    bytes.iter().map(|byte| format!("{byte:02X}")).collect()
}
