//! The opponent that hunts with the field's best library for it: memmem of the `memchr` crate for the two sync words, and behind it
//! the tests of the independent implementation, a frame that is found read in full.

use independent::frame::{fsync1, read, Reading, FRAME, SYNC};
use independent::walk::stands;
use memchr::memmem::Finder;

/// The finders are made once: each looks at its word before it searches.
pub struct Hunter {
    words: [Finder<'static>; 2],
    /// Places searched for the one word and then for the other: few, and the second search finds the bytes in the cache.
    block: usize,
}

impl Hunter {
    pub fn new(block: usize) -> Hunter {
        let words = [0, 1].map(|n| Finder::new(&SYNC[n]));
        Hunter { words, block }
    }

    /// The first place that stands and is confirmed, with its reading.
    pub fn hunt(&self, record: &[u8]) -> Option<(usize, Reading)> {
        let places = (record.len() + 1).checked_sub(FRAME)?;
        let mut blocks = (0..places).step_by(self.block);
        blocks
            .find_map(|from| self.search(record, from, places.min(from.saturating_add(self.block))))
    }

    fn search(&self, record: &[u8], from: usize, to: usize) -> Option<(usize, Reading)> {
        // A sync word begins one byte behind its place.
        let searched = &record[from + 1..to + 3];
        let mut found = self.words.each_ref().map(|word| word.find_iter(searched));
        let mut next = found.each_mut().map(Iterator::next);
        loop {
            let n = match next {
                [None, None] => return None,
                [Some(a), Some(b)] => usize::from(b < a),
                [a, _] => usize::from(a.is_none()),
            };
            let place = from + next[n]?;
            if confirmed(record, place) {
                let reading = read(&record[place..place + FRAME]).ok()?;
                return Some((place, reading));
            }
            next[n] = found[n].next();
        }
    }
}

fn confirmed(record: &[u8], place: usize) -> bool {
    let behind = place + FRAME;
    stands(record, place)
        && stands(record, behind)
        && fsync1(&record[place..]) != fsync1(&record[behind..])
}
