//! Leased lines and check bytes through the proved exports and through this implementation.

use super::{hex, Case, Checked, Expected, GUARD};
use crate::generate::lines::{
    any_frame, any_information, change, check_length, length, parts, spoil_one_root, spoil_row,
    variant,
};
use crate::line::{back, frame, out, rows, Parts, OUTPUT, ROWS, VARIANTS};
use crate::line_abi as abi;
use crate::reed_solomon::{check_bytes, is_clean};

impl Case<'_> {
    /// A frame out; what came of it, or other bytes, back; and a row.
    pub(super) fn line(&mut self) -> Checked<()> {
        self.tally.lines += 1;
        let frame = any_frame(&mut self.random);
        let (number, check) = variant(&mut self.random);
        self.kind = format!("leased line, variant {number}");
        let lent = parts(&mut self.random, 0, check);
        let n = length(&mut self.random, OUTPUT);
        let expected = out(&frame, number, &lent, n);
        self.tally.lines_out[answered(&expected)] += 1;
        let output = self.fresh("out", n, expected, |output| {
            abi::out(&frame, number, &lent, output)
        })?;
        self.rows_told(output.clone(), number)?;
        self.line_back(&output)?;
        self.row()
    }

    /// Which rows are clean, now and then after a change.
    fn rows_told(&mut self, mut output: Vec<u8>, number: usize) -> Checked<()> {
        let times = self.random.pick(&[0, 1, 3]);
        change(&mut self.random, &mut output, times);
        if self.random.one_in(4) && output.len() == OUTPUT {
            spoil_row(&mut self.random, &mut output);
        }
        let n = length(&mut self.random, ROWS);
        let expected = rows(&output, number, n);
        self.tally.lines_told[answered(&expected)] += 1;
        self.fresh("clean rows", n, expected, |clean| {
            abi::rows(&output, number, clean)
        })?;
        Ok(())
    }

    /// All six parts, each between guards.
    fn line_back(&mut self, output: &[u8]) -> Checked<()> {
        let (number, check) = variant(&mut self.random);
        self.kind = format!("leased line back, variant {number}");
        let lent = parts(&mut self.random, number.min(OUTPUT), check);
        let expected = back(output, number, &lent);
        let answer = *expected.as_ref().err().unwrap_or(&0);
        self.tally.lines_back[usize::from(answer)] += 1;
        let inside = expected.unwrap_or(lent.clone());
        let guard = self.random.bytes(GUARD);
        let guarded = |p: &Parts| six(p).map(|part| [&guard[..], part, &guard].concat());
        let (mut bytes, expected_bytes) = (guarded(&lent), guarded(&inside));
        let mut slices = bytes.each_mut().map(|b| {
            let end = b.len() - GUARD;
            &mut b[GUARD..end]
        });
        let got = abi::back(output, number, &mut slices);
        self.same("back", &got, &answer)?;
        if bytes != expected_bytes {
            let (proved, own) = (hex(&bytes.concat()), hex(&expected_bytes.concat()));
            return Err(self.mismatch("back", proved, own));
        }
        self.frame_again(&inside.information, number)
    }

    fn frame_again(&mut self, came: &[u8], number: usize) -> Checked<()> {
        let information = any_information(&mut self.random, came);
        let choice = self.random.pick(&[0, 1, 255]);
        let level = self.random.pick(&[0, 1, 2, 3, 3, 4, 255]);
        let n = length(&mut self.random, OUTPUT);
        let expected = frame(&information, number, choice, level, n);
        self.tally.lines_again[answered(&expected)] += 1;
        self.fresh("frame made again", n, expected, |frame| {
            abi::frame(&information, number, choice, level, frame)
        })?;
        Ok(())
    }

    /// Information, its check bytes, and the row of both, as it is and with some bytes changed.
    fn row(&mut self) -> Checked<()> {
        let v = self.random.pick(&VARIANTS);
        self.kind = format!("row of {} and {}", v.width, v.check);
        let n = length(&mut self.random, v.width);
        let information = self.random.bytes(n);
        let n = check_length(&mut self.random, v.check);
        let expected = check_bytes(&information, n);
        self.tally.check_bytes[usize::from(expected.is_err())] += 1;
        let check = self.fresh("check bytes", n, expected, |check| {
            abi::check_bytes(&information, check)
        })?;
        let mut row = [information, check].concat();
        let times = self.random.pick(&[0, 0, 1, 2, v.check]);
        change(&mut self.random, &mut row, times);
        if self.random.one_in(8) && row.len() == v.width + v.check {
            spoil_one_root(&mut self.random, &mut row, v.check);
        }
        self.row_tested(&row, v.check)
    }

    fn row_tested(&mut self, row: &[u8], right: usize) -> Checked<()> {
        let check = check_length(&mut self.random, right);
        let told = is_clean(row, check);
        self.tally.rows[told.map_or(1, |clean| 2 * usize::from(clean))] += 1;
        let n = length(&mut self.random, 1);
        let expected = if n == 1 {
            told.map(|clean| vec![u8::from(clean)])
        } else {
            Err(1)
        };
        self.fresh("row tested", n, expected, |clean| {
            abi::test_row(row, check, clean)
        })?;
        Ok(())
    }
}

fn answered(expected: &Expected) -> usize {
    usize::from(*expected.as_ref().err().unwrap_or(&0))
}

fn six(p: &Parts) -> [&[u8]; 6] {
    [
        &p.information,
        &p.management,
        &p.supervision,
        &p.synchronising,
        &p.signalling,
        &p.check,
    ]
}
