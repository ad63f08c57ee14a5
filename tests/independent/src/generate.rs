//! Seeded cases: frames, field sets for writing, records, frames with signalling, chains of relays, records whose every place is asked about, tables for the profile, EDI packets, fault logs, and leased lines.

pub mod chains;
pub mod frames;
pub mod lines;
pub mod logs;
pub mod packets;
pub mod profiles;
pub mod records;
pub mod signals;
pub mod tags;
pub mod writings;

/// What a case is of; each sort draws from its own random bytes.
#[derive(Clone, Copy, Debug)]
pub enum Sort {
    Frame = 1,
    Writing = 2,
    Record = 3,
    Signals = 4,
    Chain = 5,
    Places = 6,
    Profile = 7,
    Packet = 8,
    Log = 9,
    Line = 10,
}

/// Splitmix64.
pub struct Random(u64);

impl Random {
    /// Every case begins its own sequence, so that it can be had alone.
    pub fn new(seed: u64, sort: Sort, case: u64) -> Random {
        let mut random = Random(seed);
        for part in [sort as u64, case] {
            random = Random(random.number() ^ part.wrapping_mul(0xD6E8_FEB8_6659_FD93));
        }
        random
    }

    pub fn number(&mut self) -> u64 {
        self.0 = self.0.wrapping_add(0x9E37_79B9_7F4A_7C15);
        let mixed = (self.0 ^ self.0 >> 30).wrapping_mul(0xBF58_476D_1CE4_E5B9);
        let mixed = (mixed ^ mixed >> 27).wrapping_mul(0x94D0_49BB_1331_11EB);
        mixed ^ mixed >> 31
    }

    /// A number from 0 to `bound` − 1.
    pub fn below(&mut self, bound: usize) -> usize {
        (self.number() % bound as u64) as usize
    }

    /// A number from `first` to `last`.
    pub fn within(&mut self, first: usize, last: usize) -> usize {
        first + self.below(last - first + 1)
    }

    pub fn one_in(&mut self, chances: usize) -> bool {
        self.below(chances) == 0
    }

    pub fn pick<T: Copy>(&mut self, choices: &[T]) -> T {
        choices[self.below(choices.len())]
    }

    /// No fault, one, a pair or three, in order.
    pub fn faults<T: Copy + Ord>(&mut self, all: &[T]) -> Vec<T> {
        let count = self.pick(&[0, 0, 0, 1, 1, 1, 1, 2, 2, 3]);
        let mut faults: Vec<T> = (0..count).map(|_| self.pick(all)).collect();
        faults.sort();
        faults
    }

    pub fn fill(&mut self, bytes: &mut [u8]) {
        for part in bytes.chunks_mut(8) {
            let number = self.number().to_le_bytes();
            part.copy_from_slice(&number[..part.len()]);
        }
    }

    pub fn bytes(&mut self, length: usize) -> Vec<u8> {
        let mut bytes = vec![0; length];
        self.fill(&mut bytes);
        bytes
    }

    pub fn byte(&mut self) -> u8 {
        self.number() as u8
    }
}
