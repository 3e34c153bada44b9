//! The table: "S, M, then the session records, then the item records", F-6:
//! then the ranks.

use crate::item::Item;
use crate::layout::{
    item_at, ranks_at, session_at, table_length, within, MAX_ITEMS, MAX_SESSIONS, TABLE_HEADER,
    TABLE_ITEMS, TABLE_SESSIONS,
};
use crate::ranks::Ranks;
use crate::session::{Session, Stage};

#[derive(Clone, PartialEq, Eq, Debug)]
pub struct Table {
    pub sessions: Vec<Session>,
    pub items: Vec<Item>,
    pub ranks: Ranks,
}

impl Table {
    /// "Start writes S and M, every session at stage 1, all else zero" but for
    /// the ranks.
    pub fn fresh(ranks: Ranks, items: usize) -> Table {
        Table {
            sessions: vec![Session::fresh(); ranks.bytes().len()],
            items: vec![Item::fresh(); items],
            ranks,
        }
    }

    /// S and M, if they are within their bounds and the length matches.
    pub fn size(table: &[u8]) -> Option<(usize, usize)> {
        if table.len() < TABLE_HEADER {
            return None;
        }
        let sessions = within(table[TABLE_SESSIONS].into(), MAX_SESSIONS)?;
        let items = within(table[TABLE_ITEMS].into(), MAX_ITEMS)?;
        (table.len() == table_length(sessions, items)).then_some((sessions, items))
    }

    /// The records, if the table is well-formed (01: in form). The length has
    /// been judged before.
    pub fn decode(table: &[u8]) -> Option<Table> {
        let (sessions, items) = Table::size(table)?;
        let session = |k| Session::decode(&table[session_at(k)], sessions, items);
        let item = |k| Item::decode(&table[item_at(sessions, k)], sessions);
        Some(Table {
            sessions: (1..=sessions).map(session).collect::<Option<_>>()?,
            items: (1..=items).map(item).collect::<Option<_>>()?,
            ranks: Ranks::decode(&table[ranks_at(sessions, items)])?,
        })
    }

    pub fn encode(&self, table: &mut [u8]) {
        let (sessions, items) = (self.sessions.len(), self.items.len());
        table[TABLE_SESSIONS] = sessions as u8;
        table[TABLE_ITEMS] = items as u8;
        for (k, session) in (1..).zip(&self.sessions) {
            session.encode(&mut table[session_at(k)]);
        }
        for (k, item) in (1..).zip(&self.items) {
            item.encode(&mut table[item_at(sessions, k)]);
        }
        table[ranks_at(sessions, items)].copy_from_slice(self.ranks.bytes());
    }

    /// Sessions are numbered from 1.
    pub fn session(&self, number: u8) -> &Session {
        &self.sessions[usize::from(number) - 1]
    }

    pub fn session_mut(&mut self, number: u8) -> &mut Session {
        &mut self.sessions[usize::from(number) - 1]
    }

    /// Items are numbered from 1.
    pub fn item(&self, number: u8) -> &Item {
        &self.items[usize::from(number) - 1]
    }

    pub fn item_mut(&mut self, number: u8) -> &mut Item {
        &mut self.items[usize::from(number) - 1]
    }
}

/// How many sessions a call brought "from another stage to stage 6".
pub fn rolled_back(before: &Table, after: &Table) -> u64 {
    let pairs = before.sessions.iter().zip(&after.sessions);
    pairs
        .filter(|(before, after)| {
            before.stage != Stage::RolledBack && after.stage == Stage::RolledBack
        })
        .count() as u64
}
