//! A frame read and written again, with the level that reading hands on.

use crate::frame::{main_stream_part, read, Reading};
use crate::writing::{write, Fields};

/// 0 if the frame is written, else reading's or writing's refusal number, with `out` untouched.
pub fn relay(frame: &[u8], out: &mut [u8]) -> u8 {
    let read = read(frame).and_then(|reading| Ok((reading, main_stream_part(frame)?)));
    match read {
        Ok((reading, main)) => write(&fields(&reading), &frame[main], out),
        Err(number) => number,
    }
}

fn fields(reading: &Reading) -> Fields {
    let header = &reading.header;
    Fields {
        level: header.level,
        fsync1: header.fsync1,
        fct: header.fct,
        ficf: header.ficf,
        nst: header.nst,
        fp: header.fp,
        mid: header.mid,
        mnsc: header.mnsc,
        rfu: header.rfu,
        rfa: header.rfa,
        timestamp: header.timestamp,
        table: reading.table,
    }
}
