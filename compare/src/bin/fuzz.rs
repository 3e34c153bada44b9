//! Compares the library with the model on new seeds: `fuzz SECONDS [SEED]`.
//! The first seed comes from the clock unless it is given.

use compare::cases::round;
use compare::comparison::Comparison;
use compare::library::Library;
use std::env;
use std::process::ExitCode;
use std::time::{Duration, Instant, SystemTime, UNIX_EPOCH};

/// Seeds from the clock are shortened, to be easy to copy.
const SEEDS: u128 = 1_000_000_000_000;

fn main() -> ExitCode {
    let number = |n: usize| env::args().nth(n).and_then(|text| text.parse::<u64>().ok());
    let Some(seconds) = number(1) else {
        eprintln!("usage: fuzz SECONDS [SEED]");
        return ExitCode::from(2);
    };
    let clock = || {
        let since = SystemTime::now().duration_since(UNIX_EPOCH);
        (since.map_or(0, |time| time.as_nanos()) % SEEDS) as u64
    };
    let first = number(2).unwrap_or_else(clock);
    println!("seeds from {first} on, for {seconds} s");

    let begin = Instant::now();
    let mut comparison = Comparison::new(Library::LINKED);
    let mut seed = first;
    // At least one round.
    loop {
        if let Err(reason) = round(&mut comparison, seed) {
            println!("{}", comparison.coverage);
            println!("FAILED: round {seed}: {reason}");
            println!("(make fuzz SEED={seed} FUZZ_SECONDS=0 repeats it)");
            return ExitCode::FAILURE;
        }
        seed = seed.wrapping_add(1);
        if begin.elapsed() >= Duration::from_secs(seconds) {
            break;
        }
    }
    println!("{}", comparison.coverage);
    let (calls, rounds) = (comparison.coverage.calls(), seed.wrapping_sub(first));
    println!("{calls} calls in {rounds} rounds: library and model agree on every answer and byte.");
    ExitCode::SUCCESS
}
