//! Fault logs and sheets through the proved exports and through this implementation.

use super::{Case, Checked, Expected};
use crate::generate::logs::{any_entry, lent_sheet, log_case, spoiled_sheet, BYTES};
use crate::generate::records::record_case;
use crate::log::{entry, read, sheet, write, Entry, RECORD, ROWS, SHEET};
use crate::logs_abi as abi;
use crate::walk::{step, Item, State};

/// Logs of at most so many bytes are now and then made bad at every byte.
const BAD_EVERYWHERE: usize = 4 * RECORD;
/// Entries written in one case.
const WRITTEN: usize = 32;

impl Case<'_> {
    pub(super) fn log(&mut self) -> Checked<()> {
        let log = log_case(&mut self.random);
        self.kind = format!("log of {} bytes, faults {:?}", log.bytes.len(), log.faults);
        self.tally.logs += 1;
        self.whole_log(&log.bytes)?;
        if log.bytes.len() <= BAD_EVERYWHERE && self.random.one_in(16) {
            self.bad_everywhere(&log.bytes)?;
        }
        self.kind = "entries of a log".to_string();
        for _ in 0..WRITTEN {
            let entry = any_entry(&mut self.random);
            self.written(&entry)?;
        }
        if self.random.one_in(8) {
            self.log_of_walk()?;
        }
        Ok(())
    }

    fn whole_log(&mut self, log: &[u8]) -> Checked<()> {
        self.log_judged(log)?;
        let records = log.len() / RECORD;
        let any = self.random.below(records + 2);
        // Beyond the end, some of which are small after narrowing or taken sixteen times.
        let beyond = [
            records,
            1 << 8,
            1 << 16,
            1 << 32,
            any + (1 << 60),
            usize::MAX,
        ];
        for n in [0, any].into_iter().chain(beyond) {
            self.log_entry(log, n)?;
        }
        let lent = spoiled_sheet(&mut self.random);
        let _ = self.added(log, lent)?;
        self.sheet_of_other_length(log)?;
        self.read_and_written(log)?;
        self.in_parts(log)
    }

    fn count_log(&mut self, number: u8) {
        self.tally.log_numbers[usize::from(number)] += 1;
    }

    fn log_judged(&mut self, log: &[u8]) -> Checked<()> {
        let expected = abi::judged_bytes(read(log).err());
        self.count_log(expected[0]);
        self.answer("log judged", abi::JUDGED, Ok(expected), |judged| {
            abi::judged(log, judged)
        })?;
        Ok(())
    }

    fn log_entry(&mut self, log: &[u8], n: usize) -> Checked<()> {
        let entry = entry(log, n);
        self.count_log(entry.err().unwrap_or(0));
        let expected = entry.map(|entry| abi::entry_bytes(&entry));
        let what = format!("log entry {n}");
        self.answer(&what, abi::ENTRY, expected, |entry| {
            abi::entry(log, n, entry)
        })?;
        Ok(())
    }

    /// Into sixteen bytes, and now and then into fewer or more, which comes before all else.
    fn written(&mut self, entry: &Entry) -> Checked<Vec<u8>> {
        let other = self.random.pick(&[0, 1, 8, 11, 15, 17, 32]);
        let length = if self.random.one_in(8) { other } else { RECORD };
        let mut record = vec![0; length];
        let number = write(entry, &mut record);
        self.count_log(number);
        let expected = if number == 0 { Ok(record) } else { Err(number) };
        self.fresh(&format!("{entry:?} written"), length, expected, |record| {
            abi::write(entry, record)
        })
    }

    /// The sheet with the log added, or the number it is refused with.
    fn added(&mut self, log: &[u8], lent: Vec<u8>) -> Checked<Expected> {
        let mut sum = lent.clone();
        let number = sheet(log, &mut sum);
        self.count_log(number);
        let expected = if number == 0 { Ok(sum) } else { Err(number) };
        self.expect("sheet", lent, expected.clone(), |sheet| {
            abi::sheet(log, sheet)
        })?;
        Ok(expected)
    }

    fn sheet_of_other_length(&mut self, log: &[u8]) -> Checked<()> {
        let length = self
            .random
            .pick(&[0, 8, 128, SHEET - 1, SHEET + 1, 2 * SHEET]);
        self.count_log(1);
        self.fresh("sheet of other length", length, Err(1), |sheet| {
            abi::sheet(log, sheet)
        })?;
        Ok(())
    }

    /// Read then written: the same sixteen bytes return.
    fn read_and_written(&mut self, log: &[u8]) -> Checked<()> {
        for (record, entry) in log.chunks(RECORD).zip(read(log).unwrap_or_default()) {
            let expected = Ok(record.to_vec());
            self.fresh("record written again", RECORD, expected, |record| {
                abi::write(&entry, record)
            })?;
        }
        Ok(())
    }

    /// Added in two or three calls, the parts give the sheet of the whole, in which every record is counted once.
    fn in_parts(&mut self, log: &[u8]) -> Checked<()> {
        if read(log).is_err() {
            return Ok(());
        }
        self.tally.logs_in_parts += 1;
        let lent = lent_sheet(&mut self.random);
        let whole = self.added(log, lent.clone())?;
        let records = log.len() / RECORD;
        let second = self.random.within(0, records);
        let first = self.random.within(0, second);
        let mut sum = Ok(lent.clone());
        for part in [0..first, first..second, second..records] {
            let part = &log[part.start * RECORD..part.end * RECORD];
            if let Ok(lent) = sum {
                sum = self.added(part, lent)?;
            }
        }
        self.same("sheet in parts", &sum, &whole)?;
        let more = whole.map(|whole| counted(&whole) - counted(&lent));
        self.same("records counted", &more, &Ok(records as u128))
    }

    /// Every byte of the log in turn is another; and the log is cut at every byte.
    fn bad_everywhere(&mut self, log: &[u8]) -> Checked<()> {
        self.tally.logs_bad_everywhere += 1;
        let lent = lent_sheet(&mut self.random);
        for at in 0..log.len() {
            let any = self.random.byte();
            for byte in BYTES.into_iter().chain([any]) {
                let mut bad = log.to_vec();
                bad[at] = byte;
                self.log_judged(&bad)?;
                self.log_entry(&bad, at / RECORD)?;
                let _ = self.added(&bad, lent.clone())?;
            }
            self.log_judged(&log[..at])?;
            self.log_entry(&log[..at], 0)?;
            let _ = self.added(&log[..at], lent.clone())?;
        }
        Ok(())
    }

    /// The log of a record's walk, written entry by entry; done is refused.
    fn log_of_walk(&mut self) -> Checked<()> {
        let record = record_case(&mut self.random);
        self.kind = format!("log of a record, {}", record.kind);
        self.tally.logs_of_walks += 1;
        let limit = self.random.within(1, 8);
        let mut log = Vec::new();
        let mut walk = State::begin(limit).map(|state| step(&record.bytes, state));
        while let Ok((item, state)) = walk {
            let entry = Entry::of(&item);
            if let Item::Done(_) = item {
                self.count_log(29);
                self.fresh("done written", RECORD, Err(29), |record| {
                    abi::write(&entry, record)
                })?;
                break;
            }
            let bytes = Ok(entry.bytes().to_vec());
            log.extend(self.fresh("item written", RECORD, bytes, |record| {
                abi::write(&entry, record)
            })?);
            walk = Ok(step(&record.bytes, state));
        }
        self.whole_log(&log)
    }
}

/// The totals of a sheet's rows added up.
fn counted(sheet: &[u8]) -> u128 {
    let rows = sheet.chunks(8).take(ROWS);
    rows.map(|row| row.iter().fold(0, |sum, &byte| sum << 8 | u128::from(byte)))
        .sum()
}
