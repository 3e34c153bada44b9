//! Compares the library with the model on fixed seeds, and prints what the
//! calls have met.

use compare::cases::all;
use compare::comparison::Comparison;
use compare::edges;
use compare::library::Library;
use std::process::ExitCode;
use std::time::Instant;

/// Calls that there must be.
const CALLS_AT_LEAST: u64 = 1_000_000;

fn main() -> ExitCode {
    let begin = Instant::now();
    let mut comparison = Comparison::new(Library::LINKED);
    let outcome = all(&mut comparison).and_then(|()| edges::all(&mut comparison));
    let coverage = &comparison.coverage;
    println!("{coverage}");
    let mut failures: Vec<String> = outcome.err().into_iter().collect();
    if failures.is_empty() {
        failures.extend(
            coverage
                .missing()
                .iter()
                .map(|place| format!("met too seldom: {place}")),
        );
        if coverage.calls() < CALLS_AT_LEAST {
            failures.push(format!("fewer than {CALLS_AT_LEAST} calls"));
        }
    }
    for failure in &failures {
        println!("FAILED: {failure}");
    }
    let (calls, seconds) = (coverage.calls(), begin.elapsed().as_secs_f64());
    if failures.is_empty() {
        println!("{calls} calls compared in {seconds:.1} s: library and model agree on every answer and byte.");
        ExitCode::SUCCESS
    } else {
        println!("{calls} calls compared in {seconds:.1} s.");
        ExitCode::FAILURE
    }
}
