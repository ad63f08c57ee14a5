//! The listing program held to the independent listing: listings COUNT PROGRAM [ARGUMENTS].

use independent::generate::{records::record_case, Random, Sort};
use independent::listing::{listing, MOST_BYTES};
use std::io::Write;
use std::process::{Command, ExitCode, Stdio};

const SEED: u64 = 1;

fn main() -> ExitCode {
    let arguments: Vec<String> = std::env::args().skip(1).collect();
    let count = arguments
        .first()
        .and_then(|count| count.parse::<u64>().ok());
    let (Some(count), Some(program)) = (count, arguments.get(1)) else {
        eprintln!("usage: listings COUNT PROGRAM [ARGUMENTS]");
        return ExitCode::from(2);
    };
    let mut idle = 0;
    for case in 0..count {
        let mut record = record_case(&mut Random::new(SEED, Sort::Record, case)).bytes;
        // Few are left longer than is listed.
        if case % 8 != 0 {
            record.truncate(MOST_BYTES);
        }
        let (proved, expected) = (listed(program, &arguments[2..], &record), listing(&record));
        if proved != expected {
            println!(
                "mismatch: seed {SEED}, record {case}\nproved:\n{proved}independent:\n{expected}"
            );
            return ExitCode::FAILURE;
        }
        idle += expected.matches(" idle ").count();
    }
    if idle == 0 {
        println!("an idle item was never listed");
        return ExitCode::FAILURE;
    }
    println!("listings {count}, idle items {idle}, no mismatch");
    ExitCode::SUCCESS
}

/// What the program prints of a record on its standard input.
fn listed(program: &str, arguments: &[String], record: &[u8]) -> String {
    let mut child = Command::new(program)
        .args(arguments)
        .stdin(Stdio::piped())
        .stdout(Stdio::piped())
        .spawn()
        .expect("the program starts");
    let mut input = child.stdin.take().expect("its input is a pipe");
    // A program that has read enough may close its input: what it printed decides.
    let _ = input.write_all(record);
    drop(input);
    let output = child.wait_with_output().expect("the program ends");
    String::from_utf8_lossy(&output.stdout).into_owned()
}
