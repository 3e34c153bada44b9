//! Texts of cycles.

use super::group::{Group, Place, Places};
use super::{Coverage, BY_RANK_AT_LEAST, CYCLE_TEXT};
use crate::comparison::Buffers;
use model::layout::MAX_TEXT;
use model::table::Table;
use model::waits::{cycle_waits, text_of, waits_for, Wait};
use model::{Refusal, Text, ACCEPTED};

/// Whether session, item and holder have so many digits.
fn has_digits(wait: &Wait, digits: [usize; 3]) -> bool {
    [wait.session, wait.item, wait.holder].map(|number| number.to_string().len()) == digits
}

const LINES: &[Place<Wait>] = &[
    ("1, 1 and 1 digits", |wait| has_digits(wait, [1, 1, 1])),
    ("1, 1 and 2 digits", |wait| has_digits(wait, [1, 1, 2])),
    ("1, 2 and 1 digits", |wait| has_digits(wait, [1, 2, 1])),
    ("1, 2 and 2 digits", |wait| has_digits(wait, [1, 2, 2])),
    ("2, 1 and 1 digits", |wait| has_digits(wait, [2, 1, 1])),
    ("2, 1 and 2 digits", |wait| has_digits(wait, [2, 1, 2])),
    ("2, 2 and 1 digits", |wait| has_digits(wait, [2, 2, 1])),
    ("2, 2 and 2 digits", |wait| has_digits(wait, [2, 2, 2])),
];

/// A text that was written.
pub struct Written {
    asked: u64,
    records: Table,
    waits: Vec<Wait>,
    length: usize,
    /// The length of the buffer.
    room: usize,
}

impl Written {
    /// Whether a member stands in a queue besides the one at which it waits.
    fn stands_too(&self, at: fn(item: u8, holder: u8, wait: &Wait) -> bool) -> bool {
        self.waits.iter().any(|wait| {
            let mut items = (1..).zip(&self.records.items);
            items.any(|(item, record)| {
                record.queue.contains(&wait.session) && at(item, record.holder, wait)
            })
        })
    }
}

/// One byte less than the longest text has.
const ONE_LESS: usize = MAX_TEXT - 1;

const WRITTEN: &[Place<Written>] = &[
    ("asked about the most senior member", |w| {
        w.asked == w.waits[0].session.into()
    }),
    ("asked about another member", |w| {
        w.asked != w.waits[0].session.into()
    }),
    (
        "a member in the queue of a higher-numbered held item too",
        |w| w.stands_too(|item, holder, wait| item > wait.item && holder != 0),
    ),
    (
        "a member in the queue of a lower-numbered free item too",
        |w| w.stands_too(|item, _, wait| item < wait.item),
    ),
    ("the longest text, in 3045 bytes", |w| {
        w.length == MAX_TEXT && w.room == MAX_TEXT
    }),
    ("the longest text, in more", |w| {
        w.length == MAX_TEXT && w.room > MAX_TEXT
    }),
    ("a shorter text in 3045 bytes", |w| {
        w.length < MAX_TEXT && w.room == MAX_TEXT
    }),
    ("a shorter text in 3044 bytes", |w| {
        w.length < MAX_TEXT && w.room == ONE_LESS
    }),
    ("exact buffer", |w| w.room == w.length),
    ("buffer one byte longer", |w| w.room == w.length + 1),
    ("buffer 1000 bytes longer or more", |w| {
        w.room >= w.length + 1000
    }),
    ("buffer of 65536 bytes or more", |w| w.room >= 1 << 16),
];

/// Met by rank and not by number.
const BY_RANK: &[Place<Written>] = &[("from another session than the lowest-numbered", |w| {
    w.waits.iter().any(|wait| wait.session < w.waits[0].session)
})];

/// A text that was refused with 11, for the room.
pub struct Short {
    length: usize,
    room: usize,
}

const SHORT: &[Place<Short>] = &[
    ("3044 bytes for the longest text", |s| s.room == ONE_LESS),
    ("one byte less", |s| s.room + 1 == s.length),
    ("length 0", |s| s.room == 0),
    ("any other length", |s| s.room > 0 && s.room + 1 < s.length),
];

/// A text that was refused with 10, for a session on no cycle.
pub struct OnNoCycle {
    /// Waits in a row, from the session on, up to the number of sessions.
    waits: usize,
    sessions: usize,
    room: usize,
}

const ON_NO_CYCLE: &[Place<OnNoCycle>] = &[
    ("waits for none", |n| n.waits == 0),
    ("waits lead to a session that waits for none", |n| {
        n.waits > 0 && n.waits < n.sessions
    }),
    ("waits lead into a cycle", |n| n.waits == n.sessions),
    ("buffer of length 0", |n| n.room == 0),
];

/// Members of cycles, in rows of nine from the fewest on.
const FEWEST: usize = 2;
const ROW: usize = 9;
const MEMBERS: [&str; 7] = [
    "2 to 10", "11 to 19", "20 to 28", "29 to 37", "38 to 46", "47 to 55", "56 to 64",
];

pub struct Texts {
    members: Group,
    lines: Places<Wait>,
    written: Places<Written>,
    by_rank: Places<Written>,
    short: Places<Short>,
    on_no_cycle: Places<OnNoCycle>,
}

impl Texts {
    pub fn new() -> Texts {
        let title = "Texts by the members of their cycle";
        Texts {
            members: Group::with_columns(title, 1, &MEMBERS, &[""; ROW]),
            lines: Places::new("Lines of texts: session, item and holder", 1, LINES),
            written: Places::new("Texts", 1, WRITTEN),
            by_rank: Places::new("Texts by rank", BY_RANK_AT_LEAST, BY_RANK),
            short: Places::new("Texts into too short a buffer", 1, SHORT),
            on_no_cycle: Places::new("No text: on no cycle", 1, ON_NO_CYCLE),
        }
    }

    pub fn groups(&self) -> [&Group; 6] {
        [
            &self.members,
            &self.lines.group,
            &self.written.group,
            &self.by_rank.group,
            &self.short.group,
            &self.on_no_cycle.group,
        ]
    }
}

impl Coverage {
    /// A text into a buffer of so many bytes.
    pub(crate) fn cycle_text(&mut self, asked: u64, buffers: &Buffers, answer: Text, room: usize) {
        const NO_CYCLE: u8 = Refusal::NoCycle as u8;
        const SHORT_BUFFER: u8 = Refusal::ShortBuffer as u8;
        self.count(CYCLE_TEXT, answer.refusal, &[asked], buffers);
        if ![ACCEPTED, NO_CYCLE, SHORT_BUFFER].contains(&answer.refusal) {
            return;
        }
        let texts = &mut self.texts;
        let records = Table::decode(&buffers.table).expect("a table that was judged");
        let waits = cycle_waits(&records, asked as u8);
        let length = text_of(&waits).len();
        match answer.refusal {
            ACCEPTED => {
                let members = waits.len() - FEWEST;
                texts.members.hit_at(MEMBERS[members / ROW], members % ROW);
                waits.iter().for_each(|wait| texts.lines.meet(wait));
                let written = Written {
                    asked,
                    records,
                    waits,
                    length,
                    room,
                };
                texts.written.meet(&written);
                texts.by_rank.meet(&written);
            }
            SHORT_BUFFER => texts.short.meet(&Short { length, room }),
            _ => texts.on_no_cycle.meet(&OnNoCycle {
                waits: waits_in_a_row(&records, asked as u8),
                sessions: records.sessions.len(),
                room,
            }),
        }
    }
}

/// As many as there are sessions if they lead into a cycle.
fn waits_in_a_row(records: &Table, mut session: u8) -> usize {
    for waits in 0..records.sessions.len() {
        match waits_for(records, session) {
            None => return waits,
            Some(holder) => session = holder,
        }
    }
    records.sessions.len()
}
