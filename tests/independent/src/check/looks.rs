//! How often a walk puts the acceptance test to a place.

use super::{Case, Checked};
use crate::abi;
use crate::frame::FRAME;
use crate::looks::looks;

impl Case<'_> {
    /// The count with a limit, any: 27 comes first, then 1.
    pub(super) fn looked(&mut self, record: &[u8], limit: usize) -> Checked<()> {
        let count = looks(record, limit);
        let what = format!("looks with limit {limit}");
        if let Ok(count) = count {
            self.tally.looks += count;
            let places = (record.len() + 1).saturating_sub(FRAME) as u64;
            self.same("at most twice the places", &(count <= 2 * places), &true)?;
        }
        let expected = count.map(|count| count.to_be_bytes().to_vec());
        self.answer(&what, abi::LOOKS, expected, |answer| {
            abi::looks(record, limit, answer)
        })?;
        Ok(())
    }
}
