//! Reasons for places through the proved export and through this implementation.

use super::{Case, Checked, OUTSIDE};
use crate::abi;
use crate::frame::FRAME;
use crate::generate::records::record_case;
use crate::walk::{stands, LIMIT_OUTSIDE};
use crate::why::{reasons, Reason, PLACE_OUTSIDE};

/// A record whose every place is asked about has at most so many bytes.
const SMALL: usize = 5 * FRAME;
/// Places asked about in a record of any size.
const CHOSEN: usize = 8;

impl Case<'_> {
    /// Every place of a small record, with one limit.
    pub(super) fn every_place(&mut self) -> Checked<()> {
        let mut record = record_case(&mut self.random);
        record.bytes.truncate(SMALL);
        if self.random.one_in(3) {
            self.repeat_a_frame(&mut record.bytes);
        }
        self.kind = format!("every place of a record, {}", record.kind);
        self.tally.every_place += 1;
        let limit = self.random.within(1, 8);
        let reasons = self.places(&record.bytes, limit)?;
        for (place, &reason) in reasons.iter().enumerate() {
            self.reason(&record.bytes, limit, place, Ok(reason))?;
        }
        Ok(())
    }

    /// A frame behind itself has the same sync word; with a byte of it flipped it may not stand.
    fn repeat_a_frame(&mut self, record: &mut [u8]) {
        let standing: Vec<usize> = (0..(record.len() + 1).saturating_sub(2 * FRAME))
            .filter(|&place| stands(record, place))
            .collect();
        if standing.is_empty() {
            return;
        }
        let place = self.random.pick(&standing);
        record.copy_within(place..place + FRAME, place + FRAME);
        if self.random.one_in(3) {
            record[place + FRAME + self.random.within(4, 15)] ^= 1;
        }
    }

    /// Some places of a record, with one limit: any, and more often those where something stood or was handed out.
    pub(super) fn some_places(&mut self, record: &[u8]) -> Checked<()> {
        let limit = self.random.within(1, 8);
        let reasons = self.places(record, limit)?;
        let plain = |reason: &Reason| matches!(reason, Reason::Refused(2) | Reason::SteppedOver(_));
        let others: Vec<usize> = (0..reasons.len())
            .filter(|&place| !plain(&reasons[place]))
            .collect();
        for _ in 0..CHOSEN.min(reasons.len()) {
            let mut place = self.random.below(reasons.len());
            if !others.is_empty() && !self.random.one_in(3) {
                place = self.random.pick(&others);
            }
            self.reason(record, limit, place, Ok(reasons[place]))?;
        }
        Ok(())
    }

    /// The reasons of all places; those outside, and limits outside, are refused.
    fn places(&mut self, record: &[u8], limit: usize) -> Checked<Vec<Reason>> {
        let reasons = reasons(record, limit);
        let told = self.same("limit of reasons", &reasons.is_ok(), &true);
        let reasons = reasons.unwrap_or_default();
        told?;
        let any = reasons.len() + self.random.below(3 * FRAME);
        for place in [
            reasons.len(),
            record.len(),
            any,
            usize::MAX - FRAME,
            usize::MAX,
        ] {
            self.reason(record, limit, place.max(reasons.len()), Err(PLACE_OUTSIDE))?;
        }
        let outside = self.random.pick(&OUTSIDE);
        let place = self.random.pick(&[0, any, usize::MAX]);
        self.reason(record, outside, place, Err(LIMIT_OUTSIDE))?;
        Ok(reasons)
    }

    fn reason(
        &mut self,
        record: &[u8],
        limit: usize,
        place: usize,
        reason: Result<Reason, u8>,
    ) -> Checked<()> {
        match reason {
            Ok(reason) => self.tally.reasons[usize::from(abi::why_bytes(reason)[0])] += 1,
            Err(number) => self.tally.why_refused[usize::from(number == PLACE_OUTSIDE)] += 1,
        }
        if reason.is_ok() {
            self.tally.why_limits[limit - 1] += 1;
        }
        let what = format!("why place {place} with limit {limit}");
        let expected = reason.map(abi::why_bytes);
        self.answer(&what, abi::WHY, expected, |answer| {
            abi::why(record, limit, place, answer)
        })?;
        Ok(())
    }
}
