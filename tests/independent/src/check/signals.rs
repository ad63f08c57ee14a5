//! Signalling through the proved exports and through this implementation.

use super::{Case, Checked};
use crate::abi;
use crate::generate::signals::{sending_case, signals_case};
use crate::signalling::{frames, items, send, Frame, Item, Told, MOST_BYTES};

/// The bytes lent to calls in a row.
struct Lent {
    signal: Vec<u8>,
    buffer: Vec<u8>,
}

impl Case<'_> {
    pub(super) fn signals(&mut self) -> Checked<()> {
        let case = signals_case(&mut self.random);
        self.kind = format!("signalling with faults {:?}", case.faults);
        self.tally.signals += 1;
        let expected = items(&case.frames);
        for (_, item) in &expected {
            self.count_signal(item_number(item));
        }
        let told = self.gathered(&case.frames)?;
        self.same("items", &told, &expected)?;
        self.sent()
    }

    fn count_signal(&mut self, number: u8) {
        self.tally.signal_numbers[usize::from(number)] += 1;
    }

    /// Frame by frame, from zero bytes on.
    fn gathered(&mut self, frames: &[Frame]) -> Checked<Vec<Told>> {
        let more = self.random.pick(&[0, 0, 1, 500]);
        let mut lent = Lent {
            signal: vec![0; abi::SIGNAL],
            buffer: self.random.bytes(MOST_BYTES + more),
        };
        let mut told = Vec::new();
        for (number, &frame) in frames.iter().enumerate() {
            self.refused_call(frame, &lent)?;
            let before = lent.buffer.clone();
            self.signal_call(frame, &mut lent, 0)?;
            // A frame that makes no group whole writes nothing, and no message is longer than the longest.
            let kept = if frame.fp % 4 == 3 { MOST_BYTES } else { 0 };
            self.same("buffer kept", &lent.buffer[kept..], &before[kept..])?;
            let item = abi::signal_item(&lent.signal, &lent.buffer);
            told.extend(item.map(|item| (number, item)));
        }
        Ok(told)
    }

    /// Now and then the same call with other lengths, or with a flag above 1.
    fn refused_call(&mut self, frame: Frame, lent: &Lent) -> Checked<()> {
        let mut signal = lent.signal.clone();
        let mut buffer = lent.buffer.clone();
        let number = match self.random.below(256) {
            0 => {
                signal.resize(self.random.pick(&[0, 14, 23, 25, 48]), 2);
                1
            }
            1 => {
                buffer.truncate(self.random.pick(&[0, 8, 1537]));
                1
            }
            2 => {
                let flag = self.random.pick(&[1, 8]);
                signal[flag] = self.random.pick(&[2, 3, 255]);
                12
            }
            _ => return Ok(()),
        };
        self.count_signal(number);
        let mut again = Lent { signal, buffer };
        let before = (again.signal.clone(), again.buffer.clone());
        self.signal_call(frame, &mut again, number)?;
        self.same("refused call", &(again.signal, again.buffer), &before)
    }

    /// One call: its number, and the bytes around what is lent.
    fn signal_call(&mut self, frame: Frame, lent: &mut Lent, number: u8) -> Checked<()> {
        let guard = self.random.bytes(super::GUARD);
        let mut signal = [&guard[..], &lent.signal, &guard].concat();
        let mut buffer = [&guard[..], &lent.buffer, &guard].concat();
        let (first, second) = (
            super::GUARD..super::GUARD + lent.signal.len(),
            super::GUARD..super::GUARD + lent.buffer.len(),
        );
        let told = abi::signal_step(
            frame.fp,
            frame.mnsc,
            &mut signal[first.clone()],
            &mut buffer[second.clone()],
        );
        self.same("number of a signalling step", &told, &number)?;
        for (bytes, inside) in [(&signal, &first), (&buffer, &second)] {
            let around = [&bytes[..inside.start], &bytes[inside.end..]].concat();
            self.same("bytes around", &around, &[&guard[..], &guard].concat())?;
        }
        lent.signal.copy_from_slice(&signal[first]);
        lent.buffer.copy_from_slice(&buffer[second]);
        Ok(())
    }

    /// The way back, and there again.
    fn sent(&mut self) -> Checked<()> {
        let (kind, message, out) = sending_case(&mut self.random);
        let expected = send(kind, &message, out);
        if let Err(number) = expected {
            self.count_signal(number);
        }
        let right = expected.is_ok();
        let bytes = self.fresh("signal write", out, expected, |out| {
            abi::signal_write(kind, &message, out)
        })?;
        if !right {
            return Ok(());
        }
        let frames = frames(&bytes);
        let told = self.gathered(&frames)?;
        let whole = (frames.len() - 1, Item::Message(kind, message));
        self.same("sent and gathered", &told, &vec![whole])
    }
}

fn item_number(item: &Item) -> u8 {
    match item {
        Item::Message(..) => 0,
        Item::Drop(number) => *number,
    }
}
