//! Chains of relays: a first frame, and the damage on the way to each relay.

use super::frames::{flip, frame_with, Fault};
use super::Random;
use crate::frame::{main_stream_part, FRAME};
use crate::sum::sum;
use std::ops::Range;

pub const MOST_RELAYS: usize = 50;

/// What happens on the way to a relay. Status byte, sync word and header (FC, STC, EOH) arrive as they were sent.
#[derive(Clone, Copy, Debug, PartialEq, Eq)]
pub enum Damage {
    Nothing,
    MainBit,
    Main,
    /// Main-stream bytes changed, and a sum that fits them.
    MainAndSum,
    SumBit,
    Rfu,
    Time,
    Padding,
    All,
}
use Damage::*;

const DAMAGES: [Damage; 8] = [MainBit, Main, MainAndSum, SumBit, Rfu, Time, Padding, All];

pub struct Chain {
    /// A frame that reading accepts.
    pub first: Vec<u8>,
    /// One for each relay.
    pub damage: Vec<Damage>,
    /// Where the main stream lies in each frame of the chain: the header is the first frame's throughout.
    main: Range<usize>,
}

pub fn chain_case(random: &mut Random) -> Chain {
    let faults: [&[Fault]; 4] = [&[], &[], &[Fault::MainSum], &[Fault::Padding]];
    let first = frame_with(random.pick(&faults), random);
    let any = random.within(1, MOST_RELAYS);
    let relays = random.pick(&[1, 2, any, any, any, MOST_RELAYS]);
    // Damage on every way, on some, and on none at all.
    let chances = random.pick(&[1, 4, 20, usize::MAX]);
    let damage = (0..relays).map(|_| match random.one_in(chances) {
        true => random.pick(&DAMAGES),
        false => Nothing,
    });
    let damage = damage.collect();
    let main = main_stream_part(&first).unwrap_or_default();
    Chain {
        first,
        damage,
        main,
    }
}

impl Chain {
    pub fn damaged(&self, sent: &[u8], damage: Damage, random: &mut Random) -> Vec<u8> {
        let (main, end) = (self.main.clone(), self.main.end);
        let mut frame = sent.to_vec();
        match damage {
            Nothing => {}
            MainBit if main.is_empty() => {}
            MainBit => flip(&mut frame[main], random),
            Main => random.fill(&mut frame[main]),
            MainAndSum => {
                random.fill(&mut frame[main.clone()]);
                let right = sum(&frame[main]).to_be_bytes();
                frame[end..end + 2].copy_from_slice(&right);
            }
            SumBit => flip(&mut frame[end..end + 2], random),
            Rfu => random.fill(&mut frame[end + 2..end + 4]),
            Time => random.fill(&mut frame[end + 4..end + 8]),
            Padding => random.fill(&mut frame[end + 8..FRAME]),
            All => random.fill(&mut frame[main.start..FRAME]),
        }
        frame
    }
}
