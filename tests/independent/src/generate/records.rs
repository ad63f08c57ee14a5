//! Records: intact frames with damage of every sort and null transmissions before, between and behind them.

use super::frames::{flip, frame_with, wrong_sync_word, Draft, Fault, FAULTS};
use super::Random;
use crate::frame::{judge, FRAME, LOGICAL, NULL_TRANSMISSION, STATUS, SYNC};

/// Intact frames at a record's end, sync words alternating.
#[derive(Clone, Copy)]
pub struct Run {
    pub start: usize,
    pub frames: usize,
}

pub struct Record {
    pub kind: &'static str,
    pub bytes: Vec<u8>,
    pub run: Option<Run>,
}

/// A record in the making, and the sync word that is next.
struct Making {
    bytes: Vec<u8>,
    next: usize,
}

pub fn record_case(random: &mut Random) -> Record {
    let mut making = Making {
        bytes: Vec::new(),
        next: random.below(2),
    };
    let mut run = None;
    let kind = match random.below(10) {
        0 => making.clean(random),
        1 => making.short(random),
        2 => making.nights(random),
        3 => making.outages(random),
        4..=6 => making.pieces(random),
        _ => {
            run = Some(making.damage_then_run(random));
            "damage, then a run of intact frames"
        }
    };
    Record {
        kind,
        bytes: making.bytes,
        run,
    }
}

/// An intact frame with the sync word given.
fn intact(sync: usize, random: &mut Random) -> Vec<u8> {
    let mut draft = Draft::valid(random);
    draft.sync = SYNC[sync];
    draft.frame(random)
}

/// A frame with one fault, and mostly the sync word given.
fn faulty(sync: usize, random: &mut Random) -> Vec<u8> {
    let fault = random.pick(&FAULTS);
    let mut frame = frame_with(&[fault], random);
    frame.resize(FRAME, 0);
    if fault != Fault::SyncWord {
        frame[1..4].copy_from_slice(&SYNC[sync]);
    }
    frame
}

/// A period that is refused for a reason other than 4.
fn refused(sync: usize, random: &mut Random) -> Vec<u8> {
    loop {
        let frame = faulty(sync, random);
        if ![0, NULL_TRANSMISSION].contains(&judge(&frame)) {
            return frame;
        }
    }
}

/// A null transmission with the sync word given. All its other bytes may be FF (clause 5.9), or those of a frame.
fn null(sync: usize, random: &mut Random) -> Vec<u8> {
    let mut frame = if random.one_in(2) {
        vec![0xFF; FRAME]
    } else {
        intact(sync, random)
    };
    frame[..LOGICAL + 4].copy_from_slice(&null_head(sync, random));
    frame
}

/// What makes a null transmission of the bytes it begins.
fn null_head(sync: usize, random: &mut Random) -> Vec<u8> {
    [&[random.pick(&STATUS)][..], &SYNC[sync], &[0xFF; 4]].concat()
}

/// A null transmission that an earlier rule refuses.
fn damaged_null(sync: usize, random: &mut Random) -> Vec<u8> {
    let mut frame = null(sync, random);
    if random.one_in(2) {
        wrong_sync_word(&mut frame, random);
    } else {
        frame[0] = random.pick(&[0x01, 0xF1, 0x55, 0x7F, 0xFE]);
    }
    frame
}

impl Making {
    fn clean(&mut self, random: &mut Random) -> &'static str {
        for _ in 0..random.below(7) {
            self.intact(random);
        }
        "clean"
    }

    /// Records about as long as one or two frames.
    fn short(&mut self, random: &mut Random) -> &'static str {
        let any = random.below(3 * FRAME);
        let frames = random.within(1, 2) * FRAME;
        let length = random.pick(&[0, any, frames - 1, frames, frames + 1]);
        self.intact(random);
        self.intact(random);
        self.bytes.resize(length, 0);
        "short"
    }

    fn pieces(&mut self, random: &mut Random) -> &'static str {
        let periods = random.below(13).min(random.below(13));
        self.lead(random);
        while self.bytes.len() < periods * FRAME {
            self.piece(random);
        }
        if random.one_in(4) && !self.bytes.is_empty() {
            let length = random.below(self.bytes.len());
            self.bytes.truncate(length);
        }
        "pieces"
    }

    /// The last night is at the very end, or cut short in its last period.
    fn nights(&mut self, random: &mut Random) -> &'static str {
        for _ in 0..random.within(1, 3) {
            self.lead(random);
            self.several_intact(random);
            self.night(random);
        }
        if random.one_in(3) {
            let missing = random.within(1, FRAME - 1);
            self.bytes.truncate(self.bytes.len() - missing);
        }
        "nights"
    }

    /// The frame at the end is handed out only in lock, with none to confirm it.
    fn outages(&mut self, random: &mut Random) -> &'static str {
        for _ in 0..random.within(1, 2) {
            self.intact(random);
            self.intact(random);
            self.refused_run(random);
            if random.one_in(2) {
                self.null(random);
            }
        }
        self.intact(random);
        "outages"
    }

    fn damage_then_run(&mut self, random: &mut Random) -> Run {
        self.lead(random);
        for _ in 0..random.below(5) {
            self.piece(random);
        }
        let start = self.bytes.len();
        let frames = random.within(2, 11);
        for _ in 0..frames {
            self.intact(random);
        }
        Run { start, frames }
    }

    /// Often the damage is met in lock.
    fn lead(&mut self, random: &mut Random) {
        if random.one_in(2) {
            self.intact(random);
            self.intact(random);
        }
    }

    fn piece(&mut self, random: &mut Random) {
        match random.below(18) {
            0 | 1 => self.several_intact(random),
            2 => self.same_sync_word(random),
            3..=5 => self.bad_run(random),
            6 => self.cut(random),
            7 => self.inserted(random),
            8 => self.deleted(random),
            9 => self.false_sync_words(random),
            10 => self.frames_in_payloads(random),
            11 | 12 => self.night(random),
            13 => self.unconfirmed(random),
            14 => self.idle_between_losses(random),
            15 | 16 => self.refused_run(random),
            _ => self.flipped(random),
        }
    }

    fn intact(&mut self, random: &mut Random) {
        let frame = intact(self.next, random);
        self.add(&frame);
    }

    /// One period's bytes, behind which the other sync word is next.
    fn add(&mut self, bytes: &[u8]) {
        self.bytes.extend(bytes);
        self.next = 1 - self.next;
    }

    fn several_intact(&mut self, random: &mut Random) {
        for _ in 0..random.within(1, 3) {
            self.intact(random);
        }
    }

    fn same_sync_word(&mut self, random: &mut Random) {
        self.intact(random);
        self.next = 1 - self.next;
    }

    /// One to four periods that mostly are refused, null transmissions among them.
    fn bad_run(&mut self, random: &mut Random) {
        for _ in 0..random.within(1, 4) {
            let frame = faulty(self.next, random);
            self.add(&frame);
        }
    }

    fn refused(&mut self, random: &mut Random) {
        let frame = refused(self.next, random);
        self.add(&frame);
    }

    /// Refused periods up to one more than the largest limit.
    fn refused_run(&mut self, random: &mut Random) {
        for _ in 0..random.within(1, 9) {
            self.refused(random);
        }
    }

    fn null(&mut self, random: &mut Random) {
        let frame = null(self.next, random);
        self.add(&frame);
    }

    fn damaged_null(&mut self, random: &mut Random) {
        let frame = damaged_null(self.next, random);
        self.add(&frame);
    }

    /// Null transmissions, more in a row than misses are borne, now and then a damaged one among them.
    fn night(&mut self, random: &mut Random) {
        let many = random.within(4, 12);
        for _ in 0..random.pick(&[1, 2, 3, many]) {
            if random.one_in(8) {
                self.damaged_null(random);
            } else {
                self.null(random);
            }
        }
    }

    /// Frames that stand, a null transmission a period behind each: they begin no lock.
    fn unconfirmed(&mut self, random: &mut Random) {
        for _ in 0..random.within(1, 3) {
            self.intact(random);
            self.null(random);
        }
    }

    /// Fewer misses than lose the lock, a null transmission that clears them, and misses again.
    fn idle_between_losses(&mut self, random: &mut Random) {
        for _ in 0..2 {
            for _ in 0..random.within(1, 7) {
                self.refused(random);
            }
            self.null(random);
        }
    }

    /// An intact frame, now and then a null transmission.
    fn period(&self, random: &mut Random) -> Vec<u8> {
        if random.one_in(4) {
            null(self.next, random)
        } else {
            intact(self.next, random)
        }
    }

    fn cut(&mut self, random: &mut Random) {
        let frame = self.period(random);
        let any = random.below(FRAME);
        let length = random.pick(&[1, 3, 4, FRAME - 1, any, any]);
        self.add(&frame[..length]);
    }

    fn inserted(&mut self, random: &mut Random) {
        let mut frame = self.period(random);
        let at = random.below(FRAME);
        let extra = random.within(1, 4);
        let extra = random.bytes(extra);
        frame.splice(at..at, extra);
        self.add(&frame);
    }

    /// Deleted from the padding, a frame still stands and overhangs the next; so does a null transmission.
    fn deleted(&mut self, random: &mut Random) {
        let mut frame = self.period(random);
        let at = random.below(FRAME - 4);
        let many = random.within(1, 4);
        frame.drain(at..at + many);
        self.add(&frame);
    }

    fn false_sync_words(&mut self, random: &mut Random) {
        let length = random.within(16, FRAME + 100);
        let mut bytes = random.bytes(length);
        for _ in 0..random.below(20) {
            // As much of a null transmission's head as makes a false sync word, or all of it.
            let end = random.pick(&[LOGICAL, LOGICAL, LOGICAL + 4]);
            let at = random.below(length - end);
            let sync = random.below(2);
            bytes[at..at + end].copy_from_slice(&null_head(sync, random)[..end]);
        }
        self.bytes.extend(bytes);
    }

    /// Frames that each carry another frame's carried bytes at the same place: two locks are possible.
    fn frames_in_payloads(&mut self, random: &mut Random) {
        let shift = random.below(3000);
        let turned = random.below(2);
        for _ in 0..random.within(1, 4) {
            let outer = Draft {
                sync: SYNC[self.next],
                ..drawn(random, |draft| draft.main_length() > 5100)
            };
            let mut main = random.bytes(outer.main_length());
            let held = held(self.next ^ turned, random);
            main[shift..shift + held.len()].copy_from_slice(&held);
            self.add(&outer.lay_out(&main));
        }
    }

    fn flipped(&mut self, random: &mut Random) {
        let mut frame = self.period(random);
        for _ in 0..random.within(1, 3) {
            let end = random.pick(&[16, 300, FRAME]);
            flip(&mut frame[..end], random);
        }
        self.add(&frame);
    }
}

/// The carried bytes of a small frame, now and then damaged, or what makes a null transmission.
fn held(sync: usize, random: &mut Random) -> Vec<u8> {
    if random.one_in(4) {
        return null_head(sync, random);
    }
    let draft = Draft {
        sync: SYNC[sync],
        ..drawn(random, |draft| draft.carried() < 2000)
    };
    let mut frame = draft.frame(random);
    frame.truncate(draft.carried());
    if random.one_in(8) {
        flip(&mut frame[..20], random);
    }
    frame
}

fn drawn(random: &mut Random, wanted: impl Fn(&Draft) -> bool) -> Draft {
    loop {
        let draft = Draft::valid(random);
        if wanted(&draft) {
            return draft;
        }
    }
}
