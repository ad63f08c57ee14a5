//! Hunting beside both opponents, and whether walking and counting grow as the record does.

use crate::{begun, full_frame, walked, LIMIT};
use independent::abi;
use independent::frame::FRAME;
use independent::generate::{Random, Sort};
use independent::looks::looks;
use independent::walk::{step, Item};
use std::hint::black_box;
use std::time::{Duration, Instant};

const HUNTED: usize = 4 << 20;
/// Places that memmem searches for one word and then for the other.
const BLOCK: usize = 16 << 10;
const SIZES: [usize; 3] = [1 << 20, 4 << 20, 16 << 20];
/// The least time counts, since other work only adds.
const ROUND: Duration = Duration::from_millis(100);
/// The worst record known: a header without streams whose sum is the next place's sync word, so that a place stands every eight bytes.
const WORST: [u8; 8] = [0xFF, 0x07, 0x3A, 0xB6, 0xEE, 0x00, 0xE0, 0x01];

pub fn print(rounds: usize) {
    opponents(rounds);
    growth(rounds);
}

/// The least nanoseconds of each, run in turn, so many times and for a tenth of a second for each round at least.
fn least(rounds: usize, timed: &mut [&mut dyn FnMut()]) -> Vec<f64> {
    let mut least = vec![f64::INFINITY; timed.len()];
    let began = Instant::now();
    let mut runs = 0;
    while runs < rounds || began.elapsed() < ROUND * rounds as u32 {
        runs += 1;
        for (least, run) in least.iter_mut().zip(timed.iter_mut()) {
            let began = Instant::now();
            run();
            *least = least.min(began.elapsed().as_secs_f64() * 1e9);
        }
    }
    least
}

fn random(length: usize) -> Vec<u8> {
    Random::new(1, Sort::Record, 0).bytes(length)
}

fn opponents(rounds: usize) {
    println!(
        "\n| hunting over 4 MiB, ns per byte, least | ours | plain Rust | memmem, two runs \
         | memmem, blocks of 16 KiB | ours / the best of them |"
    );
    println!("|---|---|---|---|---|---|");
    let frame = full_frame(3, false);
    let records = [
        ("random bytes", random(HUNTED)),
        ("bytes of 55", vec![0x55; HUNTED]),
        ("zero bytes, all in one page", vec![0; HUNTED]),
        // One sync word alone is never confirmed, and the places are a period apart.
        ("frames of one sync word", frame.repeat(HUNTED / FRAME)),
    ];
    for (what, record) in &records {
        hunt(what, record, rounds);
    }
    if cfg!(not(feature = "memmem")) {
        println!("\nmemmem is left out: Debian's librust-memchr-dev is not there");
    }
}

fn hunt(what: &str, record: &[u8], rounds: usize) {
    let end = record.len() - FRAME + 1;
    let mut ours = || assert_eq!(walked(record), 0);
    let mut plain = || assert_eq!(step(black_box(record), begun()).0, Item::Done(end));
    let mut whole = memmem(record, usize::MAX);
    let mut blocks = memmem(record, BLOCK);
    let timed: &mut [&mut dyn FnMut()] = &mut [&mut ours, &mut plain, &mut whole, &mut blocks];
    let shown = if cfg!(feature = "memmem") { 4 } else { 2 };
    let times = least(rounds, &mut timed[..shown]);
    let best = times[1..].iter().copied().fold(f64::INFINITY, f64::min);
    print!("| {what} |");
    for n in 0..4 {
        match times.get(n) {
            Some(time) => print!(" {:.4} |", time / record.len() as f64),
            None => print!(" - |"),
        }
    }
    println!(" {:.2} |", times[0] / best);
}

#[cfg(feature = "memmem")]
fn memmem(record: &[u8], block: usize) -> impl FnMut() + '_ {
    let hunter = crate::memmem::Hunter::new(block);
    move || assert!(hunter.hunt(black_box(record)).is_none())
}

#[cfg(not(feature = "memmem"))]
fn memmem(_record: &[u8], _block: usize) -> impl FnMut() + '_ {
    || {}
}

fn growth(rounds: usize) {
    println!("\n| growth, ns per byte, least | 1 MiB | 4 MiB | 16 MiB | tests put, by byte |");
    println!("|---|---|---|---|---|");
    let turns: Vec<u8> = [false, true]
        .iter()
        .flat_map(|&sync| full_frame(3, sync))
        .collect();
    grown("random bytes", &random, rounds);
    grown("clean frames", &|length| repeated(&turns, length), rounds);
    grown(
        "the worst record known",
        &|length| repeated(&WORST, length),
        rounds,
    );
}

fn repeated(bytes: &[u8], length: usize) -> Vec<u8> {
    bytes.iter().copied().cycle().take(length).collect()
}

/// Walked to the end and counted, and the count held to the independent one.
fn grown(what: &str, record: &dyn Fn(usize) -> Vec<u8>, rounds: usize) {
    let mut walks = Vec::new();
    let mut counts = Vec::new();
    let mut share = 0.0;
    for size in SIZES {
        let record = record(size);
        let count = counted(&record);
        assert_eq!(looks(&record, LIMIT), Ok(count));
        share = count as f64 / size as f64;
        let mut walk = || {
            black_box(walked(&record));
        };
        let mut looks = || assert_eq!(counted(&record), count);
        let times = least(rounds, &mut [&mut walk, &mut looks]);
        walks.push(format!("{:.4}", times[0] / size as f64));
        counts.push(format!("{:.4}", times[1] / size as f64));
    }
    println!("| walking {what} | {} | {share:.4} |", walks.join(" | "));
    println!("| counting {what} | {} | {share:.4} |", counts.join(" | "));
}

/// By the proved export.
fn counted(record: &[u8]) -> u64 {
    let mut answer = [0; abi::LOOKS];
    assert_eq!(abi::looks(black_box(record), LIMIT, &mut answer), 0);
    u64::from_be_bytes(answer)
}
