//! EDI packets through the proved export and through this implementation.

use super::{Case, Checked, Expected};
use crate::edi::regenerate;
use crate::frame::{read, FRAME, SYNC};
use crate::generate::frames::frame_with;
use crate::generate::packets::{packed, packet_case};
use crate::generate::tags::Values;
use crate::packets_abi as abi;

/// Packets of at most so many bytes are now and then cut at every byte.
const CUT_EVERYWHERE: usize = 2000;

impl Case<'_> {
    pub(super) fn packet(&mut self) -> Checked<()> {
        let packet = packet_case(&mut self.random);
        self.kind = format!("packet with faults {:?}", packet.faults);
        self.tally.packets += 1;
        let choice = self.choice();
        let told = self.regenerated(&packet.bytes, choice, packet.out_length)?;
        let number = *told.as_ref().err().unwrap_or(&0);
        self.tally.packet_numbers[usize::from(number)] += 1;
        if let (Ok(frame), true) = (told, packet.says_values()) {
            self.values_of(&frame, choice, &packet.values)?;
        }
        if packet.bytes.len() <= CUT_EVERYWHERE && self.random.one_in(32) {
            self.cut_everywhere(&packet.bytes, choice)?;
        }
        self.there_and_back()
    }

    /// The choice of sync word: 0, or any other.
    fn choice(&mut self) -> u8 {
        let any = self.random.within(1, 255) as u8;
        self.random.pick(&[0, 0, 1, any])
    }

    /// Number and every byte of the output.
    fn regenerated(&mut self, packet: &[u8], choice: u8, length: usize) -> Checked<Expected> {
        let mut out = vec![0; length];
        let number = regenerate(packet, choice != 0, &mut out);
        let expected = if number == 0 { Ok(out) } else { Err(number) };
        self.fresh("edi", length, expected.clone(), |out| {
            abi::regenerate(packet, choice, out)
        })?;
        Ok(expected)
    }

    /// Reading accepts the frame, with the items' values as its fields, FIC and streams; the sums agree.
    fn values_of(&mut self, frame: &[u8], choice: u8, values: &Values) -> Checked<()> {
        self.same("values", &Values::of(frame), &Ok(values.clone()))?;
        let sync = SYNC[usize::from(choice != 0)];
        self.same("sync word", &frame[1..4], &sync[..])?;
        let sums = read(frame).map(|reading| (reading.header.sent, reading.header.worked));
        self.same(
            "sums",
            &sums.map(|(sent, worked)| sent == worked),
            &Ok(true),
        )
    }

    fn cut_everywhere(&mut self, packet: &[u8], choice: u8) -> Checked<()> {
        self.tally.packets_cut += 1;
        for length in 0..packet.len() {
            let what = format!("{}, cut at {length}", self.kind);
            let whole = std::mem::replace(&mut self.kind, what);
            let _ = self.regenerated(&packet[..length], choice, FRAME)?;
            self.kind = whole;
        }
        Ok(())
    }

    /// A clean frame into items, and the items into the same 6,144 bytes.
    fn there_and_back(&mut self) -> Checked<()> {
        self.kind = "packet of a clean frame".to_string();
        let frame = frame_with(&[], &mut self.random);
        let choice = u8::from(frame[1..4] == SYNC[1]);
        let items = Values::of(&frame).map(|values| values.items(&mut self.random));
        let items = items.map_err(|number| self.refused_frame(number))?;
        let packet = packed(items, &mut self.random);
        let back = self.regenerated(&packet, choice, FRAME)?;
        self.same("there and back", &back, &Ok(frame))
    }

    fn refused_frame(&self, number: u8) -> Box<super::Mismatch> {
        self.mismatch("a clean frame read", format!("{number}"), "0".to_string())
    }
}
