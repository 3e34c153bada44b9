//! The comparison itself: it passes what answers like the model and finds what
//! does not.

use compare::cases::{every_place, round};
use compare::comparison::{Buffers, Comparison};
use compare::fast::Fast;
use compare::numbers::{delivered_direction, DELIVER_TO_ITEM, TO_ITEM, TO_SESSION};
use misread::Misreading;
use model::item::Item;
use model::layout::{
    body_at, ranks_at, read_u16, route_at, session_at, AWAITED, BODY_SIZE, DIRECTION, KIND,
    MAIL_CAPACITY, MAX_SESSIONS, ROUTE_ITEM, ROUTE_SESSION, ROUTE_SIZE,
};
use model::mailbox::{count, kind, Body, Mailbox};
use model::session::Session;
use model::table::Table;
use model::waits::{cycle_waits, text_of};
use model::{Answer, Calls, Config, Cycle, Drained, Ranks, Refusal, Text, ACCEPTED, RULES};

#[test]
fn fast_answers_like_the_model() {
    let mut comparison = Comparison::new(Fast);
    for seed in 1..=100 {
        round(&mut comparison, seed).unwrap();
    }
    every_place(&mut comparison).unwrap();
}

/// The first difference within some rounds.
fn difference(subject: impl Calls + 'static) -> Option<String> {
    let mut comparison = Comparison::new(subject);
    (1..=100).find_map(|seed| round(&mut comparison, seed).err())
}

#[test]
fn every_misreading_and_replaced_rule_is_found() {
    for &misreading in [
        &Misreading::OF_01[..],
        &Misreading::OF_F2,
        &Misreading::OF_F6,
        &Misreading::OF_F7,
        &Misreading::IN_BYTES,
        &Misreading::OF_F7_IN_BYTES,
        &Misreading::OUTSIDE_STEPS,
    ]
    .into_iter()
    .flatten()
    {
        let found = difference(misreading);
        println!("{misreading:?}: {found:?}");
        assert!(found.is_some(), "{misreading:?}");
    }
}

/// The model, with something done wrong to its answers or bytes.
#[derive(Clone, Copy, PartialEq, Eq, Debug)]
enum Wrong {
    /// Only the lowest byte of a session number counts.
    NarrowSession,
    /// Only the lower half of an item number counts.
    NarrowItem,
    /// A refused step leaves a trace in the table.
    TraceInTable,
    /// A taken entry leaves a trace in the mail.
    TraceInMail,
    /// The newest of several messages on a route is delivered.
    NewestOnRoute,
    /// The last of more than 16 messages in a full mail is not found.
    LastMessage,
    /// The message of another session is delivered if it is the earliest.
    SessionUnseen,
    /// A message in the other direction is delivered if it is the earliest.
    DirectionUnseen,
    /// A cycle of 64 is not reported.
    ShortWalk,
    /// The last byte of the mail is not judged.
    LastByte,
    /// A start leaves the last byte of the mail.
    ShortStart,
    /// Only the lower half of a limit counts.
    NarrowLimit,
    /// Only the lower two bytes of the deliveries made are answered.
    NarrowMade,
    /// A refused drain leaves a trace in the table.
    TraceOfRefusedDrain,
    /// A drain leaves a kind behind the last message.
    TraceOfDrain,
    /// A drain that has used all places again leaves the oldest body twice.
    TraceOfMove,
    /// A text begins with the session asked about.
    AskedFirst,
    /// A text lacks its last line.
    LastLine,
    /// A text names the item behind the one at which a session waits.
    NextItem,
    /// A text names the first item in whose queue a session stands, held or not.
    FirstItem,
    /// A text names the last item in whose queue a session stands.
    LastItem,
    /// A text says that the holder waits and the waiting session holds.
    Exchanged,
    /// Only the lowest byte of a session number counts for a text.
    NarrowMember,
    /// Only the lower two bytes of a buffer's length count for a text.
    NarrowRoom,
    /// A text leaves a zero behind it.
    TraceOfText,
    /// A refused text leaves a trace in its buffer.
    TraceOfRefusedText,
    /// Without a buffer a session on no cycle is refused with 11.
    ShortFirst,
    /// A start writes plain ranks.
    PlainStart,
    /// Only the lowest byte of the length of the ranks counts.
    NarrowRanks,
    /// A start refused with 14 leaves a trace in the table.
    TraceOfBadRanks,
    /// A step that declares writes plain ranks.
    PlainStep,
    /// A drain writes plain ranks.
    PlainDrain,
    /// A step takes bad ranks for plain ones.
    RanksUnseenByStep,
    /// A drain takes bad ranks for plain ones.
    RanksUnseenByDrain,
    /// A report takes bad ranks for plain ones.
    RanksUnseenByReport,
    /// A text takes bad ranks for plain ones.
    RanksUnseenByText,
    /// A reopening takes bad ranks for plain ones.
    RanksUnseenByReopen,
    /// Only the lowest byte of a session number counts for a reopening.
    NarrowReopen,
    /// A reopening refused with 15 leaves a trace in the table.
    TraceOfRefusedReopen,
    /// A reopening leaves a trace in the record.
    TraceOfReopen,
    /// A reopening writes the record behind the session's.
    NextReopened,
    /// A reopening does not look at the first message.
    FirstMessageUnseen,
    /// A reopening does not look at the last message of a full mail.
    LastMessageUnseen,
    /// A reopening does not look at messages to items.
    ToItemsUnseen,
    /// A reopening does not look at messages to sessions.
    ToSessionsUnseen,
    /// A reopening does not look at the a and b of aborts.
    AbortsUnseen,
    /// A reopening takes an item of the session's number for the session.
    ItemTaken,
    /// A reopening does not look at the last item.
    LastItemUnseen,
    /// A reopening does not look at the last session's stored probes.
    LastSessionUnseen,
    /// Stored probes that name the session are cleared instead.
    ClearsStored,
    /// A reopening does not judge the length of the mail.
    MailLengthUnseen,
}

/// Writes plain ranks into a table whose length is right.
fn make_plain(table: &mut [u8]) {
    if let Some((sessions, items)) = Table::size(table) {
        table[ranks_at(sessions, items)].copy_from_slice(Ranks::plain_list(sessions));
    }
}

/// A call that takes bad ranks in a table for plain ones, if it is wrong so, and
/// leaves them.
fn unseen<A>(wrong: bool, table: &mut [u8], call: impl FnOnce(&mut [u8]) -> A) -> A {
    let place = Table::size(table).map(|(sessions, items)| ranks_at(sessions, items));
    let bad = place.map(|place| (table[place.clone()].to_vec(), place));
    match bad.filter(|(ranks, _)| wrong && Ranks::decode(ranks).is_none()) {
        None => call(table),
        Some((ranks, place)) => {
            make_plain(table);
            let answer = call(table);
            table[place].copy_from_slice(&ranks);
            answer
        }
    }
}

impl Calls for Wrong {
    fn start(&self, config: &Config, table: &mut [u8], mail: &mut [u8]) -> u8 {
        let last = mail.last().copied();
        let ranks = match self {
            Wrong::NarrowRanks => &config.ranks[..config.ranks.len() & 255],
            _ => config.ranks,
        };
        let refusal = model::start(&config.with_ranks(ranks), table, mail);
        match (self, last) {
            (Wrong::ShortStart, Some(last)) => *mail.last_mut().unwrap() = last,
            (Wrong::PlainStart, _) if refusal == ACCEPTED => make_plain(table),
            (Wrong::TraceOfBadRanks, _) if refusal == Refusal::BadRanks as u8 => table[0] ^= 1,
            _ => {}
        }
        refusal
    }

    fn step(&self, v: u64, s: u64, i: u64, table: &mut [u8], mail: &mut [u8]) -> Answer {
        let session = if *self == Wrong::NarrowSession {
            s & 255
        } else {
            s
        };
        let item = if *self == Wrong::NarrowItem {
            i & 0xFFFF_FFFF
        } else {
            i
        };
        let ignored = (*self == Wrong::LastByte)
            .then_some(mail.last_mut())
            .flatten()
            .map(std::mem::take);
        if let Some(answer) = self.search(v, s, i, table, mail) {
            return answer;
        }
        let answer = unseen(*self == Wrong::RanksUnseenByStep, table, |table| {
            model::step(v, session, item, table, mail)
        });
        if let (Some(last), true) = (ignored, answer.refusal != ACCEPTED) {
            *mail.last_mut().unwrap() = last;
        }
        match self {
            Wrong::TraceInTable if answer.refusal == Refusal::MailFull as u8 => {
                *table.last_mut().unwrap() = 1
            }
            Wrong::TraceInMail
                if v >= DELIVER_TO_ITEM && answer.sent == 0 && answer.refusal == ACCEPTED =>
            {
                *mail.last_mut().unwrap() = 1;
            }
            Wrong::PlainStep if answer.victim != 0 => make_plain(table),
            _ => {}
        }
        answer
    }

    fn report(&self, session: u64, table: &[u8]) -> Cycle {
        let (wrong, mut table) = (*self == Wrong::RanksUnseenByReport, table.to_vec());
        let mut cycle = unseen(wrong, &mut table, |table| model::report(session, table));
        if *self == Wrong::ShortWalk && usize::from(cycle.length) == MAX_SESSIONS {
            cycle.length = 0;
        }
        cycle
    }

    fn drain(&self, limit: u64, table: &mut [u8], mail: &mut [u8]) -> Drained {
        let limit = if *self == Wrong::NarrowLimit {
            limit & 0xFFFF_FFFF
        } else {
            limit
        };
        let mut drained = unseen(*self == Wrong::RanksUnseenByDrain, table, |table| {
            model::drain(limit, table, mail)
        });
        if drained.refusal != ACCEPTED {
            if let (Wrong::TraceOfRefusedDrain, Some(last)) = (self, table.last_mut()) {
                *last ^= 1;
            }
            return drained;
        }
        let (capacity, count) = (read_u16(&mail[MAIL_CAPACITY]).into(), count(mail));
        match self {
            Wrong::NarrowMade => drained.made &= 0xFFFF,
            Wrong::TraceOfDrain if drained.made > 0 && count < capacity => {
                mail[body_at(capacity, count)][KIND] = kind::REQUEST;
            }
            Wrong::TraceOfMove if drained.made > capacity as u64 && count > 1 => {
                mail.copy_within(body_at(capacity, 0), body_at(capacity, 1).start);
            }
            Wrong::PlainDrain if drained.made > 0 => make_plain(table),
            _ => {}
        }
        drained
    }

    fn cycle_text(&self, session: u64, table: &[u8], text: &mut [u8]) -> Text {
        if *self == Wrong::RanksUnseenByText {
            return unseen(true, &mut table.to_vec(), |table| {
                model::cycle_text(session, table, text)
            });
        }
        let session = if *self == Wrong::NarrowMember {
            session & 255
        } else {
            session
        };
        let room = if *self == Wrong::NarrowRoom {
            text.len() & 0xFFFF
        } else {
            text.len()
        };
        let refused = |refusal: Refusal| Text {
            refusal: refusal as u8,
            length: 0,
        };
        let answer = model::cycle_text(session, table, &mut text[..room].to_vec());
        if answer.refusal != ACCEPTED {
            match (self, text) {
                (Wrong::TraceOfRefusedText, [first, ..]) => *first = 0,
                (Wrong::ShortFirst, []) if answer == refused(Refusal::NoCycle) => {
                    return refused(Refusal::ShortBuffer);
                }
                _ => {}
            }
            return answer;
        }
        let lines = self.lines(session as u8, table);
        let Some((place, rest)) = text.split_at_mut_checked(lines.len()) else {
            return refused(Refusal::ShortBuffer);
        };
        place.copy_from_slice(lines.as_bytes());
        if let (Wrong::TraceOfText, [behind, ..]) = (self, rest) {
            *behind = 0;
        }
        Text {
            refusal: ACCEPTED,
            length: lines.len() as u16,
        }
    }

    fn reopen(&self, session: u64, table: &mut [u8], mail: &[u8]) -> u8 {
        let session = match self {
            Wrong::NarrowReopen => session & 255,
            _ => session,
        };
        let before = table.to_vec();
        let refusal = unseen(*self == Wrong::RanksUnseenByReopen, table, |table| {
            model::reopen(session, table, mail)
        });
        let in_use = Refusal::InUse as u8;
        match self {
            Wrong::MailLengthUnseen if refusal == Refusal::BadSize as u8 => {
                let mut shorter = mail.to_vec();
                shorter.pop();
                return model::reopen(session, table, &shorter);
            }
            Wrong::ItemTaken if refusal == ACCEPTED => {
                let taken = |place| mail[route_at(place)][ROUTE_ITEM] == session as u8;
                if (0..count(mail)).any(taken) {
                    table.copy_from_slice(&before);
                    return in_use;
                }
            }
            Wrong::TraceOfRefusedReopen if refusal == in_use => table[0] ^= 1,
            Wrong::TraceOfReopen if refusal == ACCEPTED => {
                table[session_at(session as usize)][AWAITED] = 1;
            }
            Wrong::NextReopened if refusal == ACCEPTED => {
                let (own, next) = (session as usize, session as usize % table[0] as usize + 1);
                table[session_at(own)].copy_from_slice(&before[session_at(own)]);
                Session::fresh().encode(&mut table[session_at(next)]);
            }
            _ if refusal == in_use => return self.reopen_part(session as u8, table, mail),
            _ => {}
        }
        refusal
    }
}

impl Wrong {
    /// A reopening that looks at a part of the buffers alone, and leaves the rest.
    fn reopen_part(&self, session: u8, table: &mut [u8], mail: &[u8]) -> u8 {
        let Some(mut records) = Table::decode(table) else {
            return Refusal::InUse as u8; // the ranks are bad and not seen
        };
        let (sessions, items) = (records.sessions.len(), records.items.len());
        let mut mailbox = Mailbox::decode(mail, sessions, items).unwrap();
        let messages = &mut mailbox.messages;
        match self {
            Wrong::FirstMessageUnseen => drop(messages.drain(..messages.len().min(1))),
            Wrong::LastMessageUnseen if messages.len() == mailbox.capacity => {
                messages.pop();
            }
            Wrong::ToItemsUnseen => messages.retain(|m| m.route.direction as u8 != TO_ITEM),
            Wrong::ToSessionsUnseen => messages.retain(|m| m.route.direction as u8 != TO_SESSION),
            Wrong::AbortsUnseen => messages
                .retain(|m| m.route.session == session || !matches!(m.body, Body::Abort { .. })),
            Wrong::LastItemUnseen => records.items[items - 1] = Item::fresh(),
            Wrong::LastSessionUnseen if usize::from(session) != sessions => {
                records.sessions[sessions - 1] = Session::fresh();
            }
            Wrong::ClearsStored => {
                for record in &mut records.sessions {
                    record.juniors[usize::from(session) - 1] = 0;
                    let juniors = record.juniors.iter_mut();
                    juniors.filter(|j| **j == session).for_each(|j| *j = 0);
                }
            }
            _ => {}
        }
        let mut seen = Buffers {
            table: table.to_vec(),
            mail: mail.to_vec(),
        };
        records.encode(&mut seen.table);
        mailbox.encode(&mut seen.mail);
        let refusal = model::reopen(session.into(), &mut seen.table, &seen.mail);
        if refusal == ACCEPTED && *self == Wrong::ClearsStored {
            table.copy_from_slice(&seen.table);
        } else if refusal == ACCEPTED {
            let record = session_at(session.into());
            table[record.clone()].copy_from_slice(&seen.table[record]);
        }
        refusal
    }

    /// A delivery whose search is wrong: it takes another message, or none.
    fn search(&self, v: u64, s: u64, i: u64, table: &mut [u8], mail: &mut [u8]) -> Option<Answer> {
        let seen: &[usize] = match self {
            Wrong::NewestOnRoute | Wrong::LastMessage => &[DIRECTION, ROUTE_SESSION, ROUTE_ITEM],
            Wrong::SessionUnseen => &[DIRECTION, ROUTE_ITEM],
            Wrong::DirectionUnseen => &[ROUTE_SESSION, ROUTE_ITEM],
            _ => return None,
        };
        let route = [delivered_direction(v)?, s as u8, i as u8];
        let refusal = model::step(v, s, i, &mut table.to_vec(), &mut mail.to_vec()).refusal;
        if ![ACCEPTED, Refusal::NoMessage as u8].contains(&refusal) {
            return None;
        }
        let mut buffers = Buffers {
            table: table.to_vec(),
            mail: mail.to_vec(),
        };
        let matches = |&place: &usize| {
            let other = buffers.route(place);
            seen.iter().all(|&byte| other[byte] == route[byte])
        };
        let (count, capacity) = (buffers.count(), buffers.capacity());
        let place = match self {
            Wrong::NewestOnRoute => (0..count).rfind(matches)?,
            _ => (0..count).find(matches)?,
        };
        if *self == Wrong::LastMessage {
            return (place >= 16 && place == capacity - 1).then_some(Answer {
                refusal: Refusal::NoMessage as u8,
                ..Answer::default()
            });
        }
        // To the front, where it is the earliest of its route.
        let (verb, session, item) = buffers.delivery(place);
        let (routes, bodies) = (route_at(0).start, body_at(capacity, 0).start);
        buffers.mail[routes..route_at(place).end].rotate_right(ROUTE_SIZE);
        buffers.mail[bodies..body_at(capacity, place).end].rotate_right(BODY_SIZE);
        let Buffers {
            table: after,
            mail: left,
        } = &mut buffers;
        let answer = model::step(verb, session, item, after, left);
        if answer.refusal == ACCEPTED {
            table.copy_from_slice(after);
            mail.copy_from_slice(left);
        }
        Some(answer)
    }

    /// The lines of a text for a member of a cycle.
    fn lines(&self, session: u8, table: &[u8]) -> String {
        let records = Table::decode(table).unwrap();
        let mut waits = cycle_waits(&records, session);
        match self {
            Wrong::AskedFirst => {
                let asked = waits.iter().position(|wait| wait.session == session);
                waits.rotate_left(asked.unwrap());
            }
            Wrong::LastLine => {
                waits.pop();
            }
            _ => {}
        }
        for wait in &mut waits {
            let waiting = wait.session;
            let stands = |&item: &u8| records.item(item).queue.contains(&waiting);
            let mut items = (1..=records.items.len() as u8).filter(stands);
            match self {
                Wrong::NextItem => wait.item += 1,
                Wrong::FirstItem => wait.item = items.next().unwrap(),
                Wrong::LastItem => wait.item = items.next_back().unwrap(),
                Wrong::Exchanged => std::mem::swap(&mut wait.session, &mut wait.holder),
                _ => {}
            }
        }
        text_of(&waits)
    }
}

#[test]
fn every_wrong_byte_is_found() {
    assert_eq!(difference(RULES), None);
    for wrong in [
        Wrong::NarrowSession,
        Wrong::NarrowItem,
        Wrong::TraceInTable,
        Wrong::TraceInMail,
        Wrong::NewestOnRoute,
        Wrong::LastMessage,
        Wrong::SessionUnseen,
        Wrong::DirectionUnseen,
        Wrong::ShortWalk,
        Wrong::LastByte,
        Wrong::ShortStart,
        Wrong::NarrowLimit,
        Wrong::NarrowMade,
        Wrong::TraceOfRefusedDrain,
        Wrong::TraceOfDrain,
        Wrong::TraceOfMove,
        Wrong::AskedFirst,
        Wrong::LastLine,
        Wrong::NextItem,
        Wrong::FirstItem,
        Wrong::LastItem,
        Wrong::Exchanged,
        Wrong::NarrowMember,
        Wrong::NarrowRoom,
        Wrong::TraceOfText,
        Wrong::TraceOfRefusedText,
        Wrong::ShortFirst,
        Wrong::PlainStart,
        Wrong::NarrowRanks,
        Wrong::TraceOfBadRanks,
        Wrong::PlainStep,
        Wrong::PlainDrain,
        Wrong::RanksUnseenByStep,
        Wrong::RanksUnseenByDrain,
        Wrong::RanksUnseenByReport,
        Wrong::RanksUnseenByText,
        Wrong::RanksUnseenByReopen,
        Wrong::NarrowReopen,
        Wrong::TraceOfRefusedReopen,
        Wrong::TraceOfReopen,
        Wrong::NextReopened,
        Wrong::FirstMessageUnseen,
        Wrong::LastMessageUnseen,
        Wrong::ToItemsUnseen,
        Wrong::ToSessionsUnseen,
        Wrong::AbortsUnseen,
        Wrong::ItemTaken,
        Wrong::LastItemUnseen,
        Wrong::LastSessionUnseen,
        Wrong::ClearsStored,
        Wrong::MailLengthUnseen,
    ] {
        let found = difference(wrong);
        println!("{wrong:?}: {found:?}");
        assert!(found.is_some(), "{wrong:?}");
    }
}
