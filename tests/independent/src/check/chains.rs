//! Chains of relays through the proved exports and through this implementation.

use super::{Case, Checked};
use crate::abi;
use crate::chain::{level_at_end, sentences, undamaged, Hop};
use crate::frame::{read, FRAME};
use crate::generate::chains::chain_case;
use crate::relay::relay;

impl Case<'_> {
    pub(super) fn chain(&mut self) -> Checked<()> {
        let chain = chain_case(&mut self.random);
        self.kind = format!("chain of relays with damage {:?}", chain.damage);
        self.tally.chains += 1;
        let mut hops: Vec<Hop> = Vec::new();
        for &damage in &chain.damage {
            let sent = hops.last().map_or(&chain.first, |hop| &hop.left);
            let arrived = chain.damaged(sent, damage, &mut self.random);
            let left = self.never_refused(&arrived)?;
            hops.push(Hop::new(arrived, left));
            self.read_behind(&chain.first, &hops)?;
        }
        self.count_chain(&chain.first, &hops);
        let end = hops.last().map_or(&chain.first, |hop| &hop.left);
        self.fic(end)?;
        self.streams(end)?;
        let told = sentences(&chain.first, &hops);
        self.same("the customer's sentences", &told, &Ok(()))
    }

    fn count_chain(&mut self, first: &[u8], hops: &[Hop]) {
        self.tally.relays += hops.len() as u64;
        self.tally.wrong_sums += hops.iter().filter(|hop| hop.wrong_sum).count() as u64;
        self.tally.undamaged += u64::from(undamaged(first, hops));
    }

    /// What a relay leaves, byte for byte, whatever its output held. It never refuses.
    fn never_refused(&mut self, arrived: &[u8]) -> Checked<Vec<u8>> {
        let mut out = vec![0; FRAME];
        let number = relay(arrived, &mut out);
        let expected = if number == 0 { Ok(out) } else { Err(number) };
        let left = self.fresh("relay of a chain", FRAME, expected, |out| {
            abi::relay(arrived, out)
        })?;
        self.same("number of a relay of a chain", &number, &0)?;
        Ok(left)
    }

    /// The proved reading of the frame that the last relay left: its level, and its sums, which are equal.
    fn read_behind(&mut self, first: &[u8], hops: &[Hop]) -> Checked<()> {
        let Some(last) = hops.last() else {
            return Ok(());
        };
        let answer = self.read(&last.left, read(&last.left))?;
        let level = answer[0];
        self.same("level behind a relay", &level, &level_at_end(first, hops))?;
        self.same("sums behind a relay", &answer[18..20], &answer[20..22])
    }
}
