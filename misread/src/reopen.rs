//! Misreadings of F-7.

use crate::Misreading;
use model::layout::{mail_length, session_at, MAX_CAPACITY};
use model::mailbox::{Mailbox, Message};
use model::names::{by_message, Named, Part};
use model::session::{Session, Stage};
use model::table::Table;
use model::{reopen as right_reopen, Refusal, ACCEPTED};

const BAD_MAIL: u8 = Refusal::BadMail as u8;
const BAD_NUMBER: u8 = Refusal::BadNumber as u8;
const IN_USE: u8 = Refusal::InUse as u8;

pub fn reopen(misreading: Misreading, session: u64, table: &mut [u8], mail: &[u8]) -> u8 {
    let before = table.to_vec();
    let right = right_reopen(session, table, mail);
    match (misreading, right) {
        (Misreading::MailFormUnseen, BAD_MAIL) => right_reopen(session, table, &empty_mail()),
        (Misreading::InUseFirst, BAD_NUMBER) => IN_USE,
        (_, ACCEPTED) => accepted(misreading, session as u8, &before, table),
        (Misreading::ChecksItem, IN_USE) if session > u64::from(items(table)) => BAD_NUMBER,
        (_, IN_USE) => in_use(misreading, session as u8, table, mail),
        _ => right,
    }
}

fn empty_mail() -> Vec<u8> {
    let mut mail = vec![0; mail_length(MAX_CAPACITY)];
    Mailbox::empty(MAX_CAPACITY).encode(&mut mail);
    mail
}

fn items(table: &[u8]) -> u8 {
    Table::size(table).map_or(0, |(_, items)| items as u8)
}

/// A reopening that the rules allow.
fn accepted(misreading: Misreading, session: u8, before: &[u8], table: &mut [u8]) -> u8 {
    let old = Table::decode(before).expect("an accepted call");
    let mut new = Table::decode(table).expect("an accepted call");
    let was = old.session(session);
    let refusal = match misreading {
        Misreading::ChecksItem if session > items(table) => BAD_NUMBER,
        Misreading::RefusesMask if was.held != 0 => IN_USE,
        _ => ACCEPTED,
    };
    if refusal != ACCEPTED {
        table.copy_from_slice(before);
        return refusal;
    }
    match misreading {
        Misreading::KeepsMask => new.session_mut(session).held = was.held,
        Misreading::KeepsProbes => new.session_mut(session).juniors = was.juniors,
        _ => {}
    }
    new.encode(table);
    if misreading == Misreading::ResetsRank {
        reset_rank(session, table);
    }
    ACCEPTED
}

/// A session's rank becomes its number.
fn reset_rank(session: u8, table: &mut [u8]) {
    let (sessions, items) = Table::size(table).expect("an accepted call");
    let ranks = model::layout::ranks_at(sessions, items);
    table[ranks][usize::from(session) - 1] = session;
}

/// A reopening that the rules refuse, by what a misreading sees of the buffers.
fn in_use(misreading: Misreading, session: u8, table: &mut [u8], mail: &[u8]) -> u8 {
    let mut records = Table::decode(table).expect("a table that was judged");
    let (sessions, items) = (records.sessions.len(), records.items.len());
    let mut mailbox = Mailbox::decode(mail, sessions, items).expect("mail that was judged");
    overlook(misreading, session, &mut records, &mut mailbox);
    let (mut seen_table, mut seen_mail) = (table.to_vec(), mail.to_vec());
    records.encode(&mut seen_table);
    mailbox.encode(&mut seen_mail);
    let refusal = right_reopen(session.into(), &mut seen_table, &seen_mail);
    if refusal == ACCEPTED {
        Session::fresh().encode(&mut table[session_at(session.into())]);
    }
    refusal
}

/// Takes away what a misreading does not see.
fn overlook(misreading: Misreading, session: u8, records: &mut Table, mailbox: &mut Mailbox) {
    let messages = &mut mailbox.messages;
    // All others do not name it anyway.
    let named_but_as = |message: &Message, unseen: Part| {
        let mut names = by_message(*message, session).into_iter();
        names.any(|named| !matches!(named, Named::Message { part, .. } if part == unseen))
    };
    let place = usize::from(session) - 1;
    match misreading {
        Misreading::MailUnseen => messages.clear(),
        Misreading::UnseenAsA => messages.retain(|m| named_but_as(m, Part::A)),
        Misreading::UnseenAsB => messages.retain(|m| named_but_as(m, Part::B)),
        Misreading::QueueUnseen => {
            for item in &mut records.items {
                item.queue.retain(|&waiting| waiting != session);
            }
        }
        Misreading::HolderUnseen => {
            for item in records.items.iter_mut().filter(|i| i.holder == session) {
                item.holder = 0;
            }
        }
        Misreading::StoredInitiatorUnseen => {
            for juniors in others(session, records) {
                // A probe that names it as junior too is seen.
                if juniors[place] != session {
                    juniors[place] = 0;
                }
            }
        }
        Misreading::StoredJuniorUnseen => {
            for juniors in others(session, records) {
                for (k, junior) in juniors.iter_mut().enumerate() {
                    if k != place && *junior == session {
                        *junior = 0;
                    }
                }
            }
        }
        Misreading::OwnProbesUnseen => {
            let own = records.session_mut(session);
            own.juniors = Session::fresh().juniors;
        }
        Misreading::ReopensHolder => {
            let own = records.session_mut(session);
            if own.stage == Stage::Shrinking {
                own.held = 0;
            }
        }
        Misreading::ReopensWithdrawing => {
            let own = records.session_mut(session);
            if own.stage == Stage::Withdrawing {
                own.stage = Stage::RolledBack;
                own.awaited = 0;
            }
        }
        _ => {}
    }
}

/// The juniors of the probes that other sessions store.
fn others(session: u8, records: &mut Table) -> impl Iterator<Item = &mut [u8]> {
    let sessions = (1..).zip(&mut records.sessions);
    let others = sessions.filter(move |&(owner, _)| owner != session);
    others.map(|(_, record)| &mut record.juniors[..])
}
