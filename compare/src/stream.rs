//! Calls with what they must answer and leave, written one after the other: the C
//! test `tests/asan.c` reads them and makes them again.
//!
//! Every number is a u64, little-endian. A call is its own number; the numbers that
//! it is given; the buffers that it is lent, each as its length and its bytes; the
//! numbers of the answer; and the bytes after the call of those buffers that it may
//! write:
//!
//! - 1 start: S, M, C; ranks, table, mail; refusal; table, mail
//! - 2 step: verb, session, item; table, mail; refusal, sent, closed, victim,
//!   initiator; table, mail
//! - 3 report: session; table; refusal, length; none
//! - 4 drain: limit; table, mail; refusal, made, ending; table, mail
//! - 5 cycle text: session; table, text; refusal, length; text
//! - 6 reopen: session; table, mail; refusal; table
//!
//! Behind the last call stand 0 and how many calls there are.

use std::io::{self, Write};

#[derive(Clone, Copy, PartialEq, Eq, Debug)]
#[repr(u64)]
pub enum Which {
    Start = 1,
    Step,
    Report,
    Drain,
    CycleText,
    Reopen,
}

/// A call and what the model made of it.
pub struct Call<'a> {
    /// Whether it met a place that is met seldom.
    pub seldom: bool,
    pub which: Which,
    pub numbers: &'a [u64],
    pub lent: &'a [&'a [u8]],
    pub answer: &'a [u64],
    pub written: &'a [&'a [u8]],
}

/// Where calls are written: those that meet a place that is met seldom, and some of
/// the others.
pub struct Stream {
    out: Box<dyn Write>,
    /// One in so many of the others.
    pub one_in: u64,
    others: u64,
    /// So many were written.
    calls: u64,
}

impl Stream {
    pub fn new(out: impl Write + 'static, one_in: u64) -> Stream {
        Stream {
            out: Box::new(out),
            one_in,
            others: 0,
            calls: 0,
        }
    }

    /// Writes a call if it is one of those.
    pub fn call(&mut self, call: &Call) -> Result<(), String> {
        if !call.seldom {
            self.others += 1;
            if !self.others.is_multiple_of(self.one_in) {
                return Ok(());
            }
        }
        self.calls += 1;
        self.write(call)
            .map_err(|error| format!("a call cannot be written: {error}"))
    }

    fn write(&mut self, call: &Call) -> io::Result<()> {
        self.numbers(&[call.which as u64])?;
        self.numbers(call.numbers)?;
        for bytes in call.lent {
            self.numbers(&[bytes.len() as u64])?;
            self.out.write_all(bytes)?;
        }
        self.numbers(call.answer)?;
        call.written
            .iter()
            .try_for_each(|bytes| self.out.write_all(bytes))
    }

    fn numbers(&mut self, numbers: &[u64]) -> io::Result<()> {
        numbers
            .iter()
            .try_for_each(|number| self.out.write_all(&number.to_le_bytes()))
    }

    /// Writes the end.
    pub fn end(mut self) -> io::Result<()> {
        self.numbers(&[0, self.calls])?;
        self.out.flush()
    }
}
