//! What the compared calls have met. A place that was never met, or too seldom,
//! makes the comparison worthless, so it fails then. Which branch of a rule a step
//! takes, and where a session is named, the model says.

mod drain;
mod group;
mod list;
mod reopen;
mod report;
mod start;
mod step;
mod text;

use crate::comparison::Buffers;
use crate::forge::breaks;
use group::{Group, Places, SELDOM};
use model::{Config, Cycle, Refusal, ACCEPTED};
use std::fmt::{self, Display, Formatter};

/// Refusals of each call, endings of drains, bad ranks and reasons not to reopen a
/// session must be met this often.
pub const AT_LEAST: u64 = 1_000;

/// Each rule that is settled by seniority must be met this often against the
/// session numbers.
const BY_RANK_AT_LEAST: u64 = 50;

/// The calls and the refusals that each can give.
const CALLS: [(&str, &[Refusal]); 6] = [
    ("start", &Refusal::START_ORDER),
    ("step", &Refusal::STEP_ORDER),
    ("report", &Refusal::REPORT_ORDER),
    ("drain", &Refusal::DRAIN_ORDER),
    ("cycle text", &Refusal::TEXT_ORDER),
    ("reopen", &Refusal::REOPEN_ORDER),
];

const START: usize = 0;
const STEP: usize = 1;
const REPORT: usize = 2;
const DRAIN: usize = 3;
const CYCLE_TEXT: usize = 4;
const REOPEN: usize = 5;

/// Refusals by their number and, first, an accepted call. No call gives 12 and 13.
const ANSWERS: usize = Refusal::LAST as usize + 1;

/// The numbers that some call answers.
fn answers() -> impl Iterator<Item = usize> {
    let refusals = Refusal::ALL.into_iter().map(|refusal| refusal as usize);
    [ACCEPTED.into()].into_iter().chain(refusals)
}

/// Whether a call can give a refusal of this number.
fn gives(refusals: &[Refusal], number: usize) -> bool {
    refusals.iter().any(|&refusal| refusal as usize == number)
}

/// What any call can meet.
const ANY_CALL: &[&str] = &[
    "number of 256 to 2^32 - 1",
    "number of 2^32 and more",
    "table of length 0",
];

pub struct Coverage {
    refusals: [[u64; ANSWERS]; CALLS.len()],
    /// Whether the last call met one of these seldom.
    seldom: bool,
    any_call: Group,
    breaks: Group,
    starts: start::Starts,
    steps: step::Steps,
    reports: Places<Cycle>,
    drains: drain::Drains,
    texts: text::Texts,
    reopenings: reopen::Reopenings,
    lists: list::Lists,
}

impl Coverage {
    pub fn new() -> Coverage {
        let breaks: Vec<_> = breaks().map(|way| way.name).collect();
        Coverage {
            refusals: Default::default(),
            seldom: false,
            any_call: Group::new("Any call", 1, ANY_CALL),
            breaks: Group::new("Ways to break the form", 1, &breaks),
            starts: start::Starts::new(),
            steps: step::Steps::new(),
            reports: report::reports(),
            drains: drain::Drains::new(),
            texts: text::Texts::new(),
            reopenings: reopen::Reopenings::new(),
            lists: list::Lists::new(),
        }
    }

    pub fn calls(&self) -> u64 {
        self.refusals.iter().flatten().sum()
    }

    /// A form broken in one way was refused as it must be.
    pub fn broken(&mut self, name: &'static str) {
        self.breaks.hit(name);
    }

    fn count(&mut self, call: usize, refusal: u8, numbers: &[u64], buffers: &Buffers) {
        let count = &mut self.refusals[call][usize::from(refusal)];
        *count += 1;
        self.seldom = *count <= SELDOM;
        let group = &mut self.any_call;
        if numbers.iter().any(|n| (1 << 8..1 << 32).contains(n)) {
            group.hit("number of 256 to 2^32 - 1");
        }
        if numbers.iter().any(|&n| n >= 1 << 32) {
            group.hit("number of 2^32 and more");
        }
        if buffers.table.is_empty() {
            group.hit("table of length 0");
        }
    }

    fn groups(&self) -> Vec<&Group> {
        let mut groups = vec![&self.any_call];
        groups.extend(self.starts.groups());
        groups.extend(self.steps.groups());
        groups.push(&self.reports.group);
        groups.extend(self.drains.groups());
        groups.extend(self.texts.groups());
        groups.extend(self.reopenings.groups());
        groups.push(&self.breaks);
        groups.extend(self.lists.groups());
        groups
    }

    /// Whether a place was met that is met seldom, since this was asked last.
    pub fn met_seldom(&self) -> bool {
        let groups = self.groups().into_iter();
        let met = groups.map(Group::met_seldom).filter(|&met| met);
        met.count() > 0 || self.seldom
    }

    /// The places that were met too seldom.
    pub fn missing(&self) -> Vec<String> {
        self.missing_of(u64::MAX)
    }

    /// The same where a place that was met so often is not missing.
    pub fn missing_of(&self, enough: u64) -> Vec<String> {
        let mut missing = Vec::new();
        for (row, (call, refusals)) in CALLS.iter().enumerate() {
            for (refusal, &count) in self.refusals[row].iter().enumerate().skip(1) {
                if gives(refusals, refusal) && count < AT_LEAST.min(enough) {
                    missing.push(format!("{call} refused with {refusal}: {count} times"));
                }
                if !gives(refusals, refusal) && count > 0 {
                    missing.push(format!("{call} is never refused with {refusal}, but was"));
                }
            }
        }
        let groups = self.groups().into_iter();
        missing.extend(groups.flat_map(|group| group.missing(enough)));
        missing
    }
}

/// Buffers of accepted calls, with S, M and C as large as can be.
fn is_largest(buffers: &Buffers) -> bool {
    buffers.table.len() == Config::LARGEST.table_length()
        && buffers.mail.len() == Config::LARGEST.mail_length()
}

impl Default for Coverage {
    fn default() -> Coverage {
        Coverage::new()
    }
}

impl Display for Coverage {
    fn fmt(&self, out: &mut Formatter<'_>) -> fmt::Result {
        writeln!(
            out,
            "Calls by refusal (0: accepted; -: not given by that call)"
        )?;
        write!(out, "  {:10}", "")?;
        for refusal in answers() {
            write!(out, "{refusal:>9}")?;
        }
        writeln!(out)?;
        for (row, (call, refusals)) in CALLS.iter().enumerate() {
            write!(out, "  {call:10}")?;
            for refusal in answers() {
                if refusal == usize::from(ACCEPTED) || gives(refusals, refusal) {
                    write!(out, "{:>9}", self.refusals[row][refusal])?;
                } else {
                    write!(out, "{:>9}", "-")?;
                }
            }
            writeln!(out)?;
        }
        for group in self.groups() {
            write!(out, "\n{group}")?;
        }
        Ok(())
    }
}
