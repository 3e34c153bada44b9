//! A program that is compared with the model: its runs, each on the bytes of
//! its standard input, and their times.

use std::env;
use std::io::{self, Write};
use std::process::{Command, Stdio};
use std::thread;
use std::time::{Duration, Instant};

pub struct Program {
    path: String,
    /// Whether it is to be timed instead of compared.
    pub bench: bool,
}

impl Program {
    /// From the arguments `PROGRAM [bench]`.
    pub fn from_arguments() -> Option<Program> {
        Some(Program {
            path: env::args().nth(1)?,
            bench: env::args().nth(2).is_some_and(|word| word == "bench"),
        })
    }

    /// What it writes to standard output. A run that does not end well is an
    /// error.
    fn output(&self, input: &[u8]) -> io::Result<Vec<u8>> {
        let mut child = Command::new(&self.path)
            .stdin(Stdio::piped())
            .stdout(Stdio::piped())
            .spawn()?;
        let mut stdin = child.stdin.take().expect("a pipe");
        let bytes = input.to_vec();
        // The program may stop reading early: then writing fails, as it should.
        let writer = thread::spawn(move || drop(stdin.write_all(&bytes)));
        let run = child.wait_with_output()?;
        writer.join().expect("the writer ends");
        if run.status.success() {
            Ok(run.stdout)
        } else {
            Err(io::Error::other(run.status.to_string()))
        }
    }

    /// Runs it on every input. The time of the slowest, or which input has
    /// another output than the one expected.
    pub fn compare(&self, inputs: &[Vec<u8>], expected: &[Vec<u8>]) -> Result<Duration, String> {
        let mut slowest = Duration::ZERO;
        for (number, (input, expected)) in inputs.iter().zip(expected).enumerate() {
            let begin = Instant::now();
            let written = self.output(input).expect("the program runs");
            slowest = slowest.max(begin.elapsed());
            if written != *expected {
                return Err(format!("input {number} of {} bytes", input.len()));
            }
        }
        Ok(slowest)
    }

    /// Prints the times of one input: the program, started anew each time, and
    /// the model in this process.
    pub fn time(&self, name: &str, input: &[u8], model: fn(&[u8]) -> Vec<u8>) {
        let ours = median(|| self.output(input).expect("the program runs"));
        let model = median(|| model(input));
        println!("{name}: {ours:.1?} (model {model:.1?})");
    }
}

/// The median time of some runs.
fn median(run: impl Fn() -> Vec<u8>) -> Duration {
    let mut times: Vec<Duration> = (0..15)
        .map(|_| {
            let begin = Instant::now();
            drop(run());
            begin.elapsed()
        })
        .collect();
    times.sort();
    times[times.len() / 2]
}
