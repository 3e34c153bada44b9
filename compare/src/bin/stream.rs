//! Writes calls of the comparison, with what they must answer and leave, to standard
//! output for the C tests: see `compare::stream`.

use compare::cases::{every_value, round};
use compare::comparison::Comparison;
use compare::edges;
use compare::fast::Fast;
use compare::stream::Stream;
use std::io::{self, BufWriter};
use std::process::ExitCode;

/// The rounds of seeds 1 to this.
const ROUNDS: u64 = 300;

/// Beside the calls that meet a place that is met seldom, one in so many: a prime,
/// since many cases make the same few calls in turn.
const ONE_IN: u64 = 23;

fn main() -> ExitCode {
    match write() {
        Ok(()) => ExitCode::SUCCESS,
        Err(reason) => {
            eprintln!("FAILED: {reason}");
            ExitCode::FAILURE
        }
    }
}

fn write() -> Result<(), String> {
    // The library is left to the C tests.
    let mut comparison = Comparison::new(Fast);
    let out = BufWriter::with_capacity(1 << 20, io::stdout());
    comparison.stream = Some(Stream::new(out, ONE_IN));
    for seed in 1..=ROUNDS {
        round(&mut comparison, seed)?;
    }
    every_value(&mut comparison)?;
    if let Some(place) = comparison.coverage.missing_of(1).first() {
        return Err(format!("met too seldom: {place}"));
    }
    if let Some(stream) = &mut comparison.stream {
        stream.one_in = 1;
    }
    edges::all(&mut comparison)?;
    let stream = comparison.stream.expect("it was set above");
    stream.end().map_err(|error| error.to_string())
}
