//! Times the proved exports beside the independent implementation, round by round in turn.

mod hunting;
#[cfg(feature = "memmem")]
mod memmem;
mod packets;
mod sums;

use independent::abi;
use independent::edi;
use independent::frame::{read, Timestamp, EMPTY, FRAME};
use independent::generate::{Random, Sort};
use independent::line::{self, Parts, BLOCKS, OUTPUT, ROWS, SLOTS};
use independent::line_abi;
use independent::packets_abi;
use independent::sum::sum;
use independent::walk::{step, Item, State};
use independent::writing::{write, Fields};
use std::hint::black_box;
use std::process::ExitCode;
use std::time::Instant;

const USAGE: &str = "usage: bench [--rounds N], N at least 1";
const HUNTED: usize = 4 << 20;
const CLEAN_FRAMES: usize = 400;
const TIMES: usize = 1000;
/// Frames of a round over a leased line.
const LINES: usize = 10;
/// Bytes of a sum: headers of NST 0, 1, 2, 14 and 64, and longer ones up to a full main stream's and a frame's.
const LENGTHS: [usize; 9] = [6, 10, 14, 62, 64, 262, 1000, 6112, 6144];
/// The limit of the walks timed.
const LIMIT: usize = 3;

/// One thing timed: nanoseconds per unit of each round.
struct Row {
    what: &'static str,
    unit: &'static str,
    proved: Vec<f64>,
    rust: Vec<f64>,
}

struct Bench {
    rounds: usize,
    rows: Vec<Row>,
}

fn main() -> ExitCode {
    let arguments: Vec<String> = std::env::args().skip(1).collect();
    let Some(rounds) = rounds(&arguments) else {
        eprintln!("{USAGE}");
        return ExitCode::from(2);
    };
    let mut bench = Bench {
        rounds,
        rows: Vec::new(),
    };
    bench.hunts();
    bench.clean_walk();
    bench.readings();
    bench.packets();
    bench.sums();
    bench.lines(5592, ["out, 5,592 information bytes", "back, 5,592"]);
    bench.lines(5376, ["out, 5,376 information bytes", "back, 5,376"]);
    bench.print();
    println!();
    print_sums(rounds);
    hunting::print(rounds);
    ExitCode::SUCCESS
}

fn rounds(arguments: &[String]) -> Option<usize> {
    match arguments {
        [] => Some(10),
        [name, number] if name == "--rounds" => number.parse().ok().filter(|&rounds| rounds > 0),
        _ => None,
    }
}

impl Bench {
    /// Times both in turn, after one run of each that is not counted.
    fn time(
        &mut self,
        what: &'static str,
        (units, unit): (usize, &'static str),
        mut proved: impl FnMut(),
        mut rust: impl FnMut(),
    ) {
        let mut row = Row {
            what,
            unit,
            proved: Vec::new(),
            rust: Vec::new(),
        };
        proved();
        rust();
        for _ in 0..self.rounds {
            row.proved.push(nanoseconds(&mut proved) / units as f64);
            row.rust.push(nanoseconds(&mut rust) / units as f64);
        }
        self.rows.push(row);
    }

    fn hunts(&mut self) {
        let random = Random::new(1, Sort::Record, 0).bytes(HUNTED);
        self.hunt("hunting over random bytes", &random);
        self.hunt("hunting over zero bytes", &vec![0; HUNTED]);
        let sync = [0xFF, 0x07, 0x3A, 0xB6];
        self.hunt(
            "hunting over status and sync word repeated",
            &sync.repeat(HUNTED / 4),
        );
        // NST 64 makes each header sum as long as it can be.
        let header = [0xFF, 0x07, 0x3A, 0xB6, 0x00, 0x40, 0x00, 0x01];
        self.hunt(
            "hunting over headers of NST 64 repeated",
            &header.repeat(HUNTED / 32),
        );
    }

    /// One step from the beginning, which finds nothing.
    fn hunt(&mut self, what: &'static str, record: &[u8]) {
        let end = record.len() - FRAME + 1;
        self.time(
            what,
            (record.len(), "byte"),
            || assert_eq!(walked(record), 0),
            || assert_eq!(step(black_box(record), begun()).0, Item::Done(end)),
        );
    }

    fn clean_walk(&mut self) {
        let record: Vec<u8> = (0..CLEAN_FRAMES)
            .flat_map(|n| full_frame(3, n % 2 == 1))
            .collect();
        self.time(
            "walking a clean record of full frames",
            (CLEAN_FRAMES, "frame"),
            || assert_eq!(walked(&record), CLEAN_FRAMES),
            || assert_eq!(walked_rust(&record), CLEAN_FRAMES),
        );
    }

    fn readings(&mut self) {
        let frames = [
            ("reading a frame of FL 1,532", full_frame(3, false)),
            ("reading a full frame of NST 64", full_frame(64, false)),
        ];
        for (what, frame) in frames {
            self.time(
                what,
                (TIMES, "frame"),
                || {
                    let mut answer = [0; abi::ANSWER];
                    repeat(|| abi::read(black_box(&frame), black_box(&mut answer)));
                },
                || repeat(|| read(black_box(&frame))),
            );
        }
    }

    fn packets(&mut self) {
        let frame = full_frame(64, false);
        let packet = packets::packet(&frame);
        let mut out = [0; FRAME];
        assert_eq!(packets_abi::regenerate(&packet, 0, &mut out), 0);
        assert!(out[..] == frame[..]);
        self.time(
            "regenerating a full frame of NST 64 from its packet",
            (TIMES, "frame"),
            || {
                let mut out = [0; FRAME];
                repeat(|| packets_abi::regenerate(black_box(&packet), 0, black_box(&mut out)));
            },
            || {
                let mut out = [0; FRAME];
                repeat(|| edi::regenerate(black_box(&packet), false, black_box(&mut out)));
            },
        );
    }

    fn sums(&mut self) {
        let bytes = Random::new(1, Sort::Frame, 0).bytes(FRAME);
        self.time(
            "sum of 6,144 bytes",
            (TIMES * FRAME, "byte"),
            || repeat(|| abi::sum(black_box(&bytes))),
            || repeat(|| sum(black_box(&bytes))),
        );
    }

    /// A frame that both variants carry over a leased line, with its check bytes, and back.
    fn lines(&mut self, number: usize, [out, back]: [&'static str; 2]) {
        let frame = frame_up_to(1341, 3, false);
        let check = if number == 5592 { 5 } else { 14 };
        let mut parts = Parts {
            information: vec![0; number],
            management: vec![0; BLOCKS],
            supervision: vec![0; BLOCKS],
            synchronising: vec![0; SLOTS],
            signalling: vec![0; SLOTS],
            check: vec![0; ROWS * check],
        };
        let lent = parts.clone();
        let sent = line::out(&frame, number, &lent, OUTPUT).expect("carried");
        let mut output = vec![0; OUTPUT];
        self.time(
            out,
            (LINES, "frame"),
            || {
                (0..LINES).for_each(|_| {
                    assert_eq!(
                        line_abi::out(black_box(&frame), number, &lent, &mut output),
                        0
                    )
                })
            },
            || {
                (0..LINES).for_each(|_| {
                    assert!(line::out(black_box(&frame), number, &lent, OUTPUT).is_ok())
                })
            },
        );
        let mut slices = [
            &mut parts.information[..],
            &mut parts.management[..],
            &mut parts.supervision[..],
            &mut parts.synchronising[..],
            &mut parts.signalling[..],
            &mut parts.check[..],
        ];
        self.time(
            back,
            (LINES, "frame"),
            || {
                (0..LINES).for_each(|_| {
                    assert_eq!(line_abi::back(black_box(&sent), number, &mut slices), 0)
                })
            },
            || {
                (0..LINES)
                    .for_each(|_| assert!(line::back(black_box(&sent), number, &lent).is_ok()))
            },
        );
    }

    fn print(&self) {
        println!(
            "| what | unit | ours ns, median | ours min–max \
             | Rust ns, median | Rust min–max | ours / Rust |"
        );
        println!("|---|---|---|---|---|---|---|");
        for row in &self.rows {
            let (proved, proved_spread) = median_and_spread(&row.proved);
            let (rust, rust_spread) = median_and_spread(&row.rust);
            println!(
                "| {} | {} | {proved:.3} | {proved_spread} | {rust:.3} | {rust_spread} | {:.2} |",
                row.what,
                row.unit,
                proved / rust
            );
        }
    }
}

/// Every sum at every length, round by round in turn: the least of the rounds, since other work can only add to it.
fn print_sums(rounds: usize) {
    let sums = sums::all();
    let bytes = Random::new(1, Sort::Frame, 0).bytes(FRAME);
    let names: Vec<&str> = sums.iter().map(|&(name, _)| name).collect();
    println!("| bytes | {} | before / fast |", names.join(" | "));
    println!("|---{}|---|", "|---".repeat(names.len()));
    for length in LENGTHS {
        let part = &bytes[..length];
        for &(name, one) in &sums {
            assert!(
                name == "crate crc" || one(part) == sum(part),
                "{name}, {length} bytes"
            );
        }
        let times = 400_000 / (length + 40);
        let mut least = vec![f64::INFINITY; sums.len()];
        for _ in 0..rounds * 20 {
            for (least, &(_, one)) in least.iter_mut().zip(&sums) {
                // a sum that is stored where the next call's slice is laid would make that call wait for it
                let mut run = || {
                    let mut all = 0;
                    for _ in 0..times {
                        all ^= one(black_box(part));
                    }
                    black_box(all);
                };
                *least = least.min(nanoseconds(&mut run) / times as f64);
            }
        }
        let columns: Vec<String> = least.iter().map(|time| format!("{time:.1}")).collect();
        println!(
            "| {length} | {} | {:.2} |",
            columns.join(" | "),
            least[2] / least[0]
        );
    }
}

fn nanoseconds(run: &mut impl FnMut()) -> f64 {
    let began = Instant::now();
    run();
    began.elapsed().as_secs_f64() * 1e9
}

fn repeat<T>(mut run: impl FnMut() -> T) {
    for _ in 0..TIMES {
        black_box(run());
    }
}

fn median_and_spread(times: &[f64]) -> (f64, String) {
    let mut times = times.to_vec();
    times.sort_by(f64::total_cmp);
    let (low, high) = (times[(times.len() - 1) / 2], times[times.len() / 2]);
    let spread = format!("{:.3}–{:.3}", times[0], times[times.len() - 1]);
    ((low + high) / 2.0, spread)
}

/// Frames met by the proved walk until it is done.
fn walked(record: &[u8]) -> usize {
    let mut walk = [0; abi::WALK];
    assert_eq!(abi::begin(LIMIT, &mut walk), 0);
    let mut frames = 0;
    loop {
        let number = abi::step(black_box(record), black_box(&mut walk));
        assert_eq!(number, 0);
        match walk[abi::KIND] {
            abi::DONE_ITEM => return frames,
            kind => frames += usize::from(kind == abi::FRAME_ITEM),
        }
    }
}

fn begun() -> State {
    State::begin(LIMIT).expect("3 is a limit")
}

/// The same by the opponent, who hands out each frame's reading as well.
fn walked_rust(record: &[u8]) -> usize {
    let mut state = begun();
    let mut frames = 0;
    loop {
        let (item, next) = black_box(step(black_box(record), state));
        match item {
            Item::Done(_) => return frames,
            Item::Frame(..) => frames += 1,
            Item::Lost(..) | Item::Idle(_) => {}
        }
        state = next;
    }
}

/// A frame with as much in its streams as FL allows.
fn full_frame(streams: usize, fsync1: bool) -> Vec<u8> {
    frame_up_to(1532, streams, fsync1)
}

fn frame_up_to(fl: usize, streams: usize, fsync1: bool) -> Vec<u8> {
    let mut fields = Fields {
        level: 0,
        fsync1,
        fct: 10,
        ficf: true,
        nst: streams as u8,
        fp: 0,
        mid: 3,
        mnsc: 0,
        rfu: 0xFFFF,
        rfa: 0xFF,
        timestamp: Timestamp::None,
        table: EMPTY,
    };
    let most = (fl - fields.fl()) / 2;
    for (n, stream) in fields.table[..streams].iter_mut().enumerate() {
        stream.stl = ((most + n) / streams) as u16;
    }
    let main = Random::new(1, Sort::Writing, 0).bytes(fields.main_length());
    let mut frame = vec![0; FRAME];
    assert_eq!(write(&fields, &main, &mut frame), 0);
    frame
}
