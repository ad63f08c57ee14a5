//! Compares the proved exports with the independent implementation on seeded cases.

use independent::check::{check, Mismatch, Tally};
use independent::generate::Sort;
use std::process::ExitCode;
use std::thread;
use std::time::{Duration, Instant};

const USAGE: &str =
    "usage: compare [--seed N] [--frames N] [--records N] [--signals N] [--chains N] [--places N] [--profiles N] [--packets N] [--logs N] [--lines N] [--seconds N]";
const THREADS: u64 = 2;
/// A message, and the numbers that signalling tells or refuses with.
const SIGNAL_NUMBERS: [usize; 7] = [0, 1, 12, 24, 25, 26, 36];

/// Passing, some of reading's refusals, and the profile's own.
const PROFILE_NUMBERS: [usize; 8] = [0, 1, 6, 9, 30, 31, 32, 33];

/// Regenerated, and the numbers that packets are refused with.
const PACKET_NUMBERS: [usize; 10] = [0, 1, 7, 8, 10, 12, 20, 21, 22, 35];

/// Done, and the numbers that logs, entries and sheets are refused with.
const LOG_NUMBERS: [usize; 7] = [0, 1, 12, 28, 29, 34, 37];

/// Sent over a leased line, and what that is refused with; frames made again; rows told, and the way back.
const OUT_NUMBERS: [usize; 13] = [0, 1, 2, 3, 4, 5, 6, 7, 8, 9, 10, 12, 23];
const AGAIN_NUMBERS: [usize; 9] = [0, 1, 5, 6, 7, 8, 9, 12, 23];
const BACK_NUMBERS: [usize; 3] = [0, 1, 12];

struct Options {
    seed: u64,
    frames: u64,
    records: u64,
    signals: u64,
    chains: u64,
    /// Records whose every place is asked about.
    places: u64,
    profiles: u64,
    packets: u64,
    logs: u64,
    /// Leased lines.
    lines: u64,
    /// Rounds go on until the time is up.
    seconds: Option<u64>,
}

/// A mismatch and the case it was found in.
struct Found {
    seed: u64,
    case: u64,
    mismatch: Box<Mismatch>,
}

fn main() -> ExitCode {
    let options = match options(std::env::args().skip(1)) {
        Ok(options) => options,
        Err(message) => {
            eprintln!("{message}\n{USAGE}");
            return ExitCode::from(2);
        }
    };
    match rounds(&options) {
        Ok(tally) => report(&tally),
        Err(found) => {
            print_found(&found);
            ExitCode::FAILURE
        }
    }
}

fn options(mut arguments: impl Iterator<Item = String>) -> Result<Options, String> {
    let mut options = Options {
        seed: 1,
        frames: 200_000,
        records: 5_000,
        signals: 20_000,
        chains: 5_000,
        places: 200,
        profiles: 40_000,
        packets: 20_000,
        logs: 20_000,
        lines: 20_000,
        seconds: None,
    };
    while let Some(name) = arguments.next() {
        let value = arguments.next().and_then(|value| value.parse().ok());
        let value = value.ok_or(format!("{name} needs a number"))?;
        match name.as_str() {
            "--seed" => options.seed = value,
            "--frames" => options.frames = value,
            "--records" => options.records = value,
            "--signals" => options.signals = value,
            "--chains" => options.chains = value,
            "--places" => options.places = value,
            "--profiles" => options.profiles = value,
            "--packets" => options.packets = value,
            "--logs" => options.logs = value,
            "--lines" => options.lines = value,
            "--seconds" => options.seconds = Some(value),
            _ => return Err(format!("{name} is not known")),
        }
    }
    Ok(options)
}

/// One round, or with `--seconds` as many as begin before the time is up.
fn rounds(options: &Options) -> Result<Tally, Found> {
    let began = Instant::now();
    let time = Duration::from_secs(options.seconds.unwrap_or(0));
    let mut tally = Tally::default();
    let mut seed = options.seed;
    loop {
        tally += &round(seed, options)?;
        seed = seed.wrapping_add(1);
        if began.elapsed() >= time {
            break;
        }
    }
    println!(
        "{} rounds from seed {} in {:.1} s",
        seed.wrapping_sub(options.seed),
        options.seed,
        began.elapsed().as_secs_f64()
    );
    Ok(tally)
}

fn round(seed: u64, options: &Options) -> Result<Tally, Found> {
    let share = |thread| move || part(seed, options, thread);
    thread::scope(|scope| {
        let workers: Vec<_> = (0..THREADS)
            .map(|thread| scope.spawn(share(thread)))
            .collect();
        let mut tally = Tally::default();
        for worker in workers {
            tally += &worker.join().expect("a worker does not panic")?;
        }
        Ok(tally)
    })
}

/// The cases of one thread.
fn part(seed: u64, options: &Options, thread: u64) -> Result<Tally, Found> {
    let mut tally = Tally::default();
    let sorts = [
        (Sort::Record, options.records),
        (Sort::Frame, options.frames),
        (Sort::Writing, options.frames),
        (Sort::Signals, options.signals),
        (Sort::Chain, options.chains),
        (Sort::Places, options.places),
        (Sort::Profile, options.profiles),
        (Sort::Packet, options.packets),
        (Sort::Log, options.logs),
        (Sort::Line, options.lines),
    ];
    for (sort, count) in sorts {
        for case in (thread..count).step_by(THREADS as usize) {
            check(sort, seed, case, &mut tally).map_err(|mismatch| Found {
                seed,
                case,
                mismatch,
            })?;
        }
    }
    Ok(tally)
}

fn report(tally: &Tally) -> ExitCode {
    let mut never = false;
    println!("frames {}", tally.frames);
    println!("writings {}", tally.writings);
    println!("records {}", tally.records);
    let [frames, lost, idle, done] = tally.items;
    println!("items: frames {frames}, lost marks {lost}, idle {idle}, done {done}");
    let [outside, inside @ ..] = tally.limits;
    println!("locks lost with limits 1 to 8 {inside:?}, limits refused {outside}");
    println!("tests put by all walks {}", tally.looks);
    never |= tally.looks == 0;
    let lines = [
        ("lines by pieces: items", tally.live_items),
        ("lines by pieces: more wanted", tally.live_waits),
        ("lines by pieces: calls from any state", tally.live_states),
        ("lines by pieces: refused", tally.live_refused),
    ];
    never |= counted(&lines);
    for (number, count) in tally.numbers.iter().enumerate() {
        println!("number {number}: {count} cases");
    }
    println!("signalling {}", tally.signals);
    never |= never_met("signalling", &SIGNAL_NUMBERS, &tally.signal_numbers);
    println!("profiles {}", tally.profiles);
    never |= never_met("profiles", &PROFILE_NUMBERS, &tally.profile_numbers);
    let (packets, cut) = (tally.packets, tally.packets_cut);
    println!("packets {packets}, cut at every byte {cut}");
    never |= never_met("packets", &PACKET_NUMBERS, &tally.packet_numbers) || cut == 0;
    let sorts = [
        tally.logs_in_parts,
        tally.logs_bad_everywhere,
        tally.logs_of_walks,
    ];
    let [parts, bad, walks] = sorts;
    println!(
        "logs {}, added in parts {parts}, bad at every byte {bad}, of walks {walks}",
        tally.logs
    );
    never |= never_met("logs", &LOG_NUMBERS, &tally.log_numbers) || sorts.contains(&0);
    never |= leased_lines(tally);
    let chains = [
        ("chains", tally.chains),
        ("relays in chains", tally.relays),
        ("wrong sums met in chains", tally.wrong_sums),
        ("chains without damage", tally.undamaged),
    ];
    never |= counted(&chains);
    let [handed_out, lost, refused, not_standing, same_sync, stepped_over] = tally.reasons;
    println!("reasons: every place of {} records; handed out {handed_out}, lost {lost}, refused {refused}, not standing {not_standing}, same sync word {same_sync}, stepped over {stepped_over}", tally.every_place);
    let [limits, places] = tally.why_refused;
    println!(
        "reasons with limits 1 to 8 {:?}, limits refused {limits}, places refused {places}",
        tally.why_limits
    );
    let asked = [&tally.reasons[..], &tally.why_limits, &tally.why_refused];
    never |= tally.every_place == 0 || asked.concat().contains(&0);
    let counts = [&tally.numbers[..], &tally.items, &tally.limits];
    if never || counts.concat().contains(&0) {
        println!("a number, a kind of item or row, a limit or a reason was never met");
        return ExitCode::FAILURE;
    }
    println!("no mismatch");
    ExitCode::SUCCESS
}

/// Prints what was met on leased lines; whether a number or a kind of row never was.
fn leased_lines(tally: &Tally) -> bool {
    println!("leased lines {}", tally.lines);
    let mut never = never_met("leased lines out", &OUT_NUMBERS, &tally.lines_out);
    never |= never_met("leased lines back", &BACK_NUMBERS, &tally.lines_back);
    never |= never_met("leased lines' rows", &BACK_NUMBERS, &tally.lines_told);
    never |= never_met("leased lines again", &AGAIN_NUMBERS, &tally.lines_again);
    let ([given, no_check_bytes], [spoilt, no_row, clean]) = (tally.check_bytes, tally.rows);
    let rows = [
        ("check bytes given", given),
        ("check bytes refused", no_check_bytes),
        ("rows clean", clean),
        ("rows not clean", spoilt),
        ("rows refused", no_row),
    ];
    never | counted(&rows)
}

/// Prints each count; whether one is 0.
fn counted(counts: &[(&str, u64)]) -> bool {
    for (what, count) in counts {
        println!("{what} {count}");
    }
    counts.iter().any(|&(_, count)| count == 0)
}

/// Prints how often each number was met; whether one never was.
fn never_met(what: &str, numbers: &[usize], counts: &[u64]) -> bool {
    for &number in numbers {
        println!("{what}, number {number}: {} times", counts[number]);
    }
    numbers.iter().any(|&number| counts[number] == 0)
}

fn print_found(found: &Found) {
    let mismatch = &found.mismatch;
    println!("mismatch: seed {}, case {}", found.seed, found.case);
    println!("kind: {}", mismatch.kind);
    println!("call: {}", mismatch.what);
    println!("proved:      {}", mismatch.proved);
    println!("independent: {}", mismatch.independent);
}
