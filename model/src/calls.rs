//! The six calls on numbers and byte buffers.

use crate::answers::{Answer, Cycle, Drained, Ending, Refusal, Text, Verb, ACCEPTED};
use crate::config::Config;
use crate::item::ToSessions;
use crate::layout::{within, MAX_CAPACITY, MAX_ITEMS, MAX_SESSIONS};
use crate::mailbox::{count, message, Direction, Mailbox, Message, Route};
use crate::names::names;
use crate::policy::{Policy, RULES};
use crate::ranks::Ranks;
use crate::session::{Session, Stage, ToItems};
use crate::table::Table;
use crate::waits::{cycle_members, cycle_waits, text_of};

/// The six calls, by whoever answers them: as the rules do, where nothing else is
/// said.
pub trait Calls {
    fn start(&self, config: &Config, table: &mut [u8], mail: &mut [u8]) -> u8 {
        start(config, table, mail)
    }

    fn step(&self, v: u64, s: u64, i: u64, table: &mut [u8], mail: &mut [u8]) -> Answer {
        step(v, s, i, table, mail)
    }

    fn report(&self, session: u64, table: &[u8]) -> Cycle {
        report(session, table)
    }

    fn drain(&self, limit: u64, table: &mut [u8], mail: &mut [u8]) -> Drained {
        drain_by(self, limit, table, mail)
    }

    fn cycle_text(&self, session: u64, table: &[u8], text: &mut [u8]) -> Text {
        cycle_text(session, table, text)
    }

    fn reopen(&self, session: u64, table: &mut [u8], mail: &[u8]) -> u8 {
        reopen(session, table, mail)
    }
}

impl Calls for Policy {
    fn step(&self, v: u64, s: u64, i: u64, table: &mut [u8], mail: &mut [u8]) -> Answer {
        step_by(self, v, s, i, table, mail)
    }
}

/// What a call answers. The buffers are written last, so a refused call leaves them
/// as they were.
fn answered<A: From<Refusal>>(call: impl FnOnce() -> Result<A, Refusal>) -> A {
    call().unwrap_or_else(A::from)
}

fn number(given: u64, max: usize) -> Result<u8, Refusal> {
    let given = within(given, max).ok_or(Refusal::BadNumber)?;
    Ok(given as u8)
}

/// The causes that lie in the two buffers, 2, 3 and 4, in their order.
fn judge(table: &[u8], mail: &[u8]) -> Result<(Table, Mailbox), Refusal> {
    let (sessions, items) = Table::size(table).ok_or(Refusal::BadSize)?;
    Mailbox::capacity(mail).ok_or(Refusal::BadSize)?;
    let records = Table::decode(table).ok_or(Refusal::BadTable)?;
    let mailbox = Mailbox::decode(mail, sessions, items).ok_or(Refusal::BadMail)?;
    Ok((records, mailbox))
}

/// The causes of a call that reads the table alone, 2, 3 and 5, in their order.
fn judge_reading(session: u64, table: &[u8]) -> Result<(Table, u8), Refusal> {
    let (sessions, _) = Table::size(table).ok_or(Refusal::BadSize)?;
    let records = Table::decode(table).ok_or(Refusal::BadTable)?;
    let session = number(session, sessions)?;
    Ok((records, session))
}

/// F-6: "Start now takes S ranks, one for each session."
pub fn start(config: &Config, table: &mut [u8], mail: &mut [u8]) -> u8 {
    answered(|| {
        let sessions = within(config.sessions, MAX_SESSIONS).ok_or(Refusal::BadSize)?;
        let items = within(config.items, MAX_ITEMS).ok_or(Refusal::BadSize)?;
        let capacity = within(config.capacity, MAX_CAPACITY).ok_or(Refusal::BadSize)?;
        // "(start: against its arguments)"
        if table.len() != config.table_length() || mail.len() != config.mail_length() {
            return Err(Refusal::BadSize);
        }
        // F-6: "A start list of the wrong length is 2"
        if config.ranks.len() != sessions {
            return Err(Refusal::BadSize);
        }
        let ranks = Ranks::decode(config.ranks).ok_or(Refusal::BadRanks)?;
        Table::fresh(ranks, items).encode(table);
        Mailbox::empty(capacity).encode(mail);
        Ok(ACCEPTED)
    })
}

pub fn step(verb: u64, session: u64, item: u64, table: &mut [u8], mail: &mut [u8]) -> Answer {
    step_by(&RULES, verb, session, item, table, mail)
}

/// A step in which the parties do what a policy says: causes in order, then the rule.
pub fn step_by(
    policy: &Policy,
    verb: u64,
    session: u64,
    item: u64,
    table: &mut [u8],
    mail: &mut [u8],
) -> Answer {
    answered(|| {
        let verb = Verb::decode(verb).ok_or(Refusal::BadVerb)?;
        let (mut records, mut mailbox) = judge(table, mail)?;
        let session = number(session, records.sessions.len())?;
        let item = number(item, records.items.len())?;

        let mut answer = Answer::default();
        let sends = match verb {
            Verb::Request => {
                let before = records.session(session).clone();
                if before.stage != Stage::Growing {
                    return Err(Refusal::WrongStage);
                }
                if before.holds(item) {
                    return Err(Refusal::WrongItem);
                }
                let (after, sends) = before.request(item);
                *records.session_mut(session) = after;
                from_session(session, sends)
            }
            Verb::Release => {
                let before = records.session(session).clone();
                if !matches!(before.stage, Stage::Growing | Stage::Shrinking) {
                    return Err(Refusal::WrongStage);
                }
                if !before.holds(item) {
                    return Err(Refusal::WrongItem);
                }
                let (after, sends) = before.release(item);
                *records.session_mut(session) = after;
                from_session(session, sends)
            }
            Verb::DeliverToItem => {
                let route = Route {
                    direction: Direction::ToItem,
                    session,
                    item,
                };
                let body = mailbox.take(route).ok_or(Refusal::NoMessage)?;
                let before = records.item(item).clone();
                let waited = before.queue.contains(&session);
                let outcome = (policy.item)(before, session, body, &records.ranks);
                let waits = outcome.item.queue.contains(&session);
                *records.item_mut(item) = outcome.item;
                // "closed (1 if this step put T in a line and T then lies on a
                // ring, else 0)"
                let joined = waits && !waited;
                if joined && !cycle_members(&records, session).is_empty() {
                    answer.closed = 1;
                }
                if let Some((victim, initiator)) = outcome.declared {
                    answer.victim = victim;
                    answer.initiator = initiator;
                }
                from_item(item, outcome.sends)
            }
            Verb::DeliverToSession => {
                let route = Route {
                    direction: Direction::ToSession,
                    session,
                    item,
                };
                let body = mailbox.take(route).ok_or(Refusal::NoMessage)?;
                let before = records.session(session).clone();
                let outcome = (policy.session)(before, session, item, body, &records.ranks);
                *records.session_mut(session) = outcome.session;
                from_session(session, outcome.sends)
            }
        };

        answer.sent = sends.len() as u8;
        mailbox.messages.extend(sends);
        if mailbox.messages.len() > mailbox.capacity {
            return Err(Refusal::MailFull);
        }
        records.encode(table);
        mailbox.encode(mail);
        Ok(answer)
    })
}

fn from_session(session: u8, sends: ToItems) -> Vec<Message> {
    let direction = Direction::ToItem;
    let message = |(item, body)| Message {
        route: Route {
            direction,
            session,
            item,
        },
        body,
    };
    sends.into_iter().map(message).collect()
}

fn from_item(item: u8, sends: ToSessions) -> Vec<Message> {
    let direction = Direction::ToSession;
    let message = |(session, body)| Message {
        route: Route {
            direction,
            session,
            item,
        },
        body,
    };
    sends.into_iter().map(message).collect()
}

/// "The report answers the length of the ring on which a session lies, or 0."
/// It "reads the table alone and gives only 2, 3, 5".
pub fn report(session: u64, table: &[u8]) -> Cycle {
    answered(|| {
        let (records, session) = judge_reading(session, table)?;
        Ok(Cycle {
            refusal: ACCEPTED,
            length: cycle_members(&records, session).len() as u8,
        })
    })
}

/// F-4: the text of the ring on which a session lies, written "into the caller's
/// buffer"; "what follows it in the buffer is untouched". "Refusals 2, 3 and 5 come
/// first, then 10 [..] and 11".
pub fn cycle_text(session: u64, table: &[u8], text: &mut [u8]) -> Text {
    answered(|| {
        let (records, session) = judge_reading(session, table)?;
        let waits = cycle_waits(&records, session);
        if waits.is_empty() {
            return Err(Refusal::NoCycle);
        }
        let lines = text_of(&waits);
        let place = text.get_mut(..lines.len()).ok_or(Refusal::ShortBuffer)?;
        place.copy_from_slice(lines.as_bytes());
        Ok(Text {
            refusal: ACCEPTED,
            length: lines.len() as u16,
        })
    })
}

/// F-2: "one call that delivers the oldest entry, again and again, until the
/// mail is empty, the next delivery would be refused with 9, or as many are made
/// as the caller allows".
pub fn drain(limit: u64, table: &mut [u8], mail: &mut [u8]) -> Drained {
    drain_by(&RULES, limit, table, mail)
}

/// A drain by somebody's single steps. F-2: "only 2, 3 and 4 of 01 apply to it, before
/// any delivery". Each step is made on copies of the buffers, which take their place
/// unless one of the three ends the drain, "the first that applies".
pub fn drain_by(
    calls: &(impl Calls + ?Sized),
    limit: u64,
    table: &mut [u8],
    mail: &mut [u8],
) -> Drained {
    answered(|| {
        judge(table, mail)?;
        let mut made = 0;
        let ending = loop {
            let (mut next_table, mut next_mail) = (table.to_vec(), mail.to_vec());
            match deliver(calls, 0, &mut next_table, &mut next_mail) {
                None => break Ending::Empty,
                // Of the refusals only 9 can come.
                Some(answer) if answer.refusal != ACCEPTED => break Ending::Full,
                Some(_) if made == limit => break Ending::Limit,
                Some(_) => {}
            }
            table.copy_from_slice(&next_table);
            mail.copy_from_slice(&next_mail);
            made += 1;
        };
        Ok(Drained {
            refusal: ACCEPTED,
            made,
            ending: ending as u8,
        })
    })
}

/// Somebody's step that delivers the message at a place of well-formed mail, 0 being
/// the oldest, if there is one.
pub fn deliver(
    calls: &(impl Calls + ?Sized),
    place: usize,
    table: &mut [u8],
    mail: &mut [u8],
) -> Option<Answer> {
    if place >= count(mail) {
        return None;
    }
    let Route {
        direction,
        session,
        item,
    } = message(mail, place).route;
    let verb = Verb::delivers(direction) as u64;
    Some(calls.step(verb, session.into(), item.into(), table, mail))
}

/// F-7: "a call that reopens a session: stage 1, nothing held, no probes". The mail is
/// only read. It is "allowed exactly when the session is at stage 3 holding nothing,
/// or at stage 6, and no entry of the mail [..], no line, no holder and no stored probe
/// [..] names it". 15 comes "after 2 to 5, with only the session number checked under
/// 5".
pub fn reopen(session: u64, table: &mut [u8], mail: &[u8]) -> u8 {
    answered(|| {
        let (mut records, mailbox) = judge(table, mail)?;
        let session = number(session, records.sessions.len())?;
        let named = !names(&records, &mailbox, session).is_empty();
        if !records.session(session).may_reopen() || named {
            return Err(Refusal::InUse);
        }
        *records.session_mut(session) = Session::fresh();
        records.encode(table);
        Ok(ACCEPTED)
    })
}
