//! What the tests of the calls share.

use model::table::Table;
use model::{drain, reopen, start, step, Answer, Config, Drained, Refusal, Verb, ACCEPTED};

pub const REQUEST: u64 = Verb::Request as u64;
pub const RELEASE: u64 = Verb::Release as u64;
pub const TO_ITEM: u64 = Verb::DeliverToItem as u64;
pub const TO_SESSION: u64 = Verb::DeliverToSession as u64;

/// A lock manager with its buffers.
#[derive(Clone, PartialEq, Debug)]
pub struct Desk {
    pub table: Vec<u8>,
    pub mail: Vec<u8>,
}

impl Desk {
    /// A plain one.
    pub fn new(sessions: u64, items: u64, capacity: u64) -> Desk {
        Desk::started(&Config::plain(sessions, items, capacity))
    }

    pub fn started(config: &Config) -> Desk {
        let mut desk = Desk {
            table: vec![0xA5; config.table_length()],
            mail: vec![0xA5; config.mail_length()],
        };
        let refusal = start(config, &mut desk.table, &mut desk.mail);
        assert_eq!(refusal, ACCEPTED);
        desk
    }

    pub fn step(&mut self, verb: u64, session: u64, item: u64) -> Answer {
        step(verb, session, item, &mut self.table, &mut self.mail)
    }

    pub fn drain(&mut self, limit: u64) -> Drained {
        drain(limit, &mut self.table, &mut self.mail)
    }

    pub fn reopen(&mut self, session: u64) -> u8 {
        reopen(session, &mut self.table, &self.mail)
    }

    /// A step that must be accepted, with so many messages sent.
    pub fn sends(&mut self, verb: u64, session: u64, item: u64, sent: u8) {
        let expected = Answer {
            sent,
            ..Answer::default()
        };
        assert_eq!(self.step(verb, session, item), expected);
    }

    /// A step that must be refused, with both buffers untouched.
    pub fn refuses(&mut self, verb: u64, session: u64, item: u64, refusal: Refusal) {
        let before = self.clone();
        let expected = Answer {
            refusal: refusal as u8,
            ..Answer::default()
        };
        assert_eq!(self.step(verb, session, item), expected);
        assert_eq!(*self, before);
        self.judges_buffers(refusal);
    }

    /// A drain is refused for the same buffers as a step, and for nothing else. A
    /// reopening is refused for them before it looks at the session.
    fn judges_buffers(&mut self, refusal: Refusal) {
        match refusal {
            Refusal::BadVerb => {}
            Refusal::BadSize | Refusal::BadTable | Refusal::BadMail => {
                let before = self.clone();
                let expected = Drained {
                    refusal: refusal as u8,
                    ..Drained::default()
                };
                for number in [0, 1, u64::MAX] {
                    assert_eq!(self.drain(number), expected);
                    assert_eq!(self.reopen(number), refusal as u8);
                    assert_eq!(*self, before);
                }
            }
            _ => {
                assert_eq!(self.clone().drain(1).refusal, ACCEPTED);
                assert_eq!(self.reopen(0), Refusal::BadNumber as u8);
            }
        }
    }

    /// The same buffers with some records changed.
    pub fn forged(&self, change: impl Fn(&mut Table)) -> Desk {
        let mut desk = self.clone();
        let mut table = Table::decode(&self.table).unwrap();
        change(&mut table);
        table.encode(&mut desk.table);
        desk
    }
}
