//! The replay program, as a function from its standard input to its standard
//! output.

use crate::answers::Answer;
use crate::calls::{start, step};
use crate::config::Config;
use crate::layout::{read_u16, within, MAX_CAPACITY, MAX_ITEMS, MAX_SESSIONS};
use crate::mailbox::count;
use crate::table::{rolled_back, Table};

/// "S and M (1 byte each), n (2 bytes, 0 to 4,096)".
const HEADER: usize = 4;
pub const MAX_STEPS: usize = 4096;

/// "C is 4,096."
pub const CAPACITY: usize = MAX_CAPACITY;

/// "the tally of rings closed, declarations made and sessions reaching stage
/// 6", "one record that the steps update".
#[derive(Default)]
struct Tally {
    closed: u64,
    declared: u64,
    rolled_back: u64,
}

impl Tally {
    fn add(&mut self, answer: Answer, rolled_back: u64) {
        self.closed += u64::from(answer.closed);
        self.declared += u64::from(answer.victim != 0 && answer.initiator != 0);
        self.rolled_back += rolled_back;
    }
}

pub fn replay(input: &[u8]) -> Vec<u8> {
    run(input)
        .unwrap_or_else(|| "bad\n".to_string())
        .into_bytes()
}

/// "Any other length, or S, M or n beyond bounds, prints `bad` alone."
fn run(input: &[u8]) -> Option<String> {
    if input.len() < HEADER {
        return None;
    }
    let (header, rest) = input.split_at(HEADER);
    let sessions = within(header[0].into(), MAX_SESSIONS)?;
    let items = within(header[1].into(), MAX_ITEMS)?;
    let steps = usize::from(read_u16(&header[2..]));
    // "n verbs, then n pairs (session, item)"
    if steps > MAX_STEPS || rest.len() != steps + 2 * steps {
        return None;
    }
    let (verbs, pairs) = rest.split_at(steps);

    // F-6: "rank k for session k", "and replay uses those ranks"
    let config = Config::plain(sessions as u64, items as u64, CAPACITY as u64);
    let mut table = vec![0; config.table_length()];
    let mut mail = vec![0; config.mail_length()];
    start(&config, &mut table, &mut mail);
    let mut tally = Tally::default();
    let mut output = String::new();
    for (index, (&verb, pair)) in (1..).zip(verbs.iter().zip(pairs.chunks(2))) {
        let (session, item) = (pair[0], pair[1]);
        let before = Table::decode(&table)?;
        let answer = step(
            verb.into(),
            session.into(),
            item.into(),
            &mut table,
            &mut mail,
        );
        tally.add(answer, rolled_back(&before, &Table::decode(&table)?));
        // "index from 1, verb, session, item, refusal, sent, closed, victim,
        // initiator"
        let Answer {
            refusal,
            sent,
            closed,
            victim,
            initiator,
        } = answer;
        output += &format!(
            "{index} {verb} {session} {item} {refusal} {sent} {closed} {victim} {initiator}\n"
        );
    }
    let left = count(&mail);
    let Tally {
        closed,
        declared,
        rolled_back,
    } = tally;
    output += &format!("end {left} {closed} {declared} {rolled_back}\n");
    Some(output)
}
