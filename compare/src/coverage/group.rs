//! Named counts, in rows and sometimes in columns.

use std::cell::Cell;
use std::collections::BTreeMap;
use std::fmt::{self, Display, Formatter};

/// A name that was met no more often than this is met seldom.
pub const SELDOM: u64 = 40;

/// Each of its names must be met so often.
pub struct Group {
    title: &'static str,
    at_least: u64,
    rows: Vec<&'static str>,
    columns: Vec<&'static str>,
    places: BTreeMap<&'static str, usize>,
    counts: Vec<Vec<u64>>,
    /// Whether one was just met that is met seldom.
    seldom: Cell<bool>,
}

impl Group {
    pub fn new(title: &'static str, at_least: u64, names: &[&'static str]) -> Group {
        Group::with_columns(title, at_least, names, &[""])
    }

    pub fn with_columns(
        title: &'static str,
        at_least: u64,
        rows: &[&'static str],
        columns: &[&'static str],
    ) -> Group {
        Group {
            title,
            at_least,
            rows: rows.to_vec(),
            columns: columns.to_vec(),
            places: rows.iter().copied().zip(0..).collect(),
            counts: vec![vec![0; columns.len()]; rows.len()],
            seldom: Cell::new(false),
        }
    }

    fn row(&self, name: &str) -> usize {
        let row = self.places.get(name);
        *row.unwrap_or_else(|| panic!("no place is called {name}"))
    }

    fn raise(&mut self, row: usize, column: usize, more: u64) {
        let count = &mut self.counts[row][column];
        *count += more;
        if more > 0 && *count <= SELDOM {
            self.seldom.set(true);
        }
    }

    pub fn hit(&mut self, name: &str) {
        self.add(name, 1);
    }

    pub fn hit_at(&mut self, name: &str, column: usize) {
        self.raise(self.row(name), column, 1);
    }

    pub fn add(&mut self, name: &str, more: u64) {
        self.raise(self.row(name), 0, more);
    }

    /// Counts the most that was met at once.
    pub fn most(&mut self, name: &str, met: u64) {
        let row = self.row(name);
        self.raise(row, 0, met.saturating_sub(self.counts[row][0]));
    }

    /// Whether a name that is met seldom was met since this was asked last.
    pub fn met_seldom(&self) -> bool {
        self.seldom.take()
    }

    /// The places that were met too seldom; so often is always enough.
    pub fn missing(&self, enough: u64) -> Vec<String> {
        let mut missing = Vec::new();
        for (row, counts) in self.rows.iter().zip(&self.counts) {
            for (column, &count) in self.columns.iter().zip(counts) {
                if count < self.at_least.min(enough) {
                    missing.push(format!("{}: {row} {column}: {count} times", self.title));
                }
            }
        }
        missing
    }
}

/// A name, and when a call meets it.
pub type Place<Call> = (&'static str, fn(&Call) -> bool);

/// Places at which the calls are looked for.
pub struct Places<Call: 'static> {
    places: &'static [Place<Call>],
    pub group: Group,
}

impl<Call> Places<Call> {
    pub fn new(title: &'static str, at_least: u64, places: &'static [Place<Call>]) -> Places<Call> {
        let names: Vec<_> = places.iter().map(|&(name, _)| name).collect();
        Places {
            places,
            group: Group::new(title, at_least, &names),
        }
    }

    /// Counts every place that a call meets.
    pub fn meet(&mut self, call: &Call) {
        for (row, (_, met)) in self.places.iter().enumerate() {
            self.group.raise(row, 0, u64::from(met(call)));
        }
    }
}

/// The names of the places that a call meets.
pub fn met<Call>(places: &[Place<Call>], call: &Call) -> Vec<&'static str> {
    let met = places.iter().filter(|(_, met)| met(call));
    met.map(|&(name, _)| name).collect()
}

impl Display for Group {
    fn fmt(&self, out: &mut Formatter<'_>) -> fmt::Result {
        writeln!(out, "{}", self.title)?;
        if let [_] = self.columns[..] {
            for (row, counts) in self.rows.iter().zip(&self.counts) {
                writeln!(out, "  {row:58}{:>10}", counts[0])?;
            }
            return Ok(());
        }
        let widest = self.rows.iter().map(|row| row.len()).max().unwrap_or(0);
        write!(out, "  {:widest$}", "")?;
        for column in &self.columns {
            write!(out, "{column:>12}")?;
        }
        writeln!(out)?;
        for (row, counts) in self.rows.iter().zip(&self.counts) {
            write!(out, "  {row:widest$}")?;
            for count in counts {
                write!(out, "{count:>12}")?;
            }
            writeln!(out)?;
        }
        Ok(())
    }
}
