//! The final-stage profile through the proved exports and through this implementation.

use super::{Case, Checked};
use crate::abi;
use crate::generate::profiles::{alone, frame_of, profile_case};
use crate::profile::profile;

/// Streams of every TPL and every STL, swept over the cases, so many in each.
const SWEPT: u64 = 2;

impl Case<'_> {
    pub(super) fn profile(&mut self) -> Checked<()> {
        let (changes, frame) = profile_case(&mut self.random);
        self.kind = format!("profile of a table with changes {changes:?}");
        self.profiled(frame)?;
        for n in SWEPT * self.number..SWEPT * (self.number + 1) {
            let alone = alone(n);
            self.kind = format!("profile of {alone:?} alone");
            let frame = frame_of(vec![alone], &mut self.random);
            self.profiled(frame)?;
        }
        Ok(())
    }

    fn profiled(&mut self, frame: Vec<u8>) -> Checked<()> {
        self.tally.profiles += 1;
        let own = profile(&frame);
        let number = own.map_or_else(|refusal| refusal, |found| found.number);
        self.tally.profile_numbers[usize::from(number)] += 1;
        self.same("profile", &abi::profile(&frame), &number)?;
        let other = self.random.pick(&[0, 1, 2, 4, 6]);
        let length = if self.random.one_in(16) {
            other
        } else {
            abi::COLLISION
        };
        let expected = match own {
            _ if length != abi::COLLISION => Err(1),
            Ok(found) => Ok(vec![found.number, found.first as u8, found.second as u8]),
            Err(refusal) => Err(refusal),
        };
        self.fresh("collision", length, expected, |out| {
            abi::collision(&frame, out)
        })?;
        Ok(())
    }
}
