//! Misreadings of a step.

use crate::Misreading;
use model::answers::Verb;
use model::branch::SessionBranch;
use model::calls::step_by;
use model::item::{self, Item};
use model::layout::ranks_at;
use model::mailbox::{Body, Mailbox};
use model::session::{self, Session, Stage};
use model::table::Table;
use model::{Answer, Policy, Ranks, RULES};

pub fn step(
    misreading: Misreading,
    [verb, session, item]: [u64; 3],
    table: &mut [u8],
    mail: &mut [u8],
) -> Answer {
    let right = |table: &mut [u8], mail: &mut [u8]| {
        step_by(&policy(misreading), verb, session, item, table, mail)
    };
    match misreading {
        Misreading::SeniorByNumber => with_ranks(
            |ranks| Ranks::plain_list(ranks.len()).to_vec(),
            table,
            |table| right(table, mail),
        ),
        Misreading::RanksReversed => with_ranks(
            |ranks| ranks.iter().map(|r| ranks.len() as u8 + 1 - r).collect(),
            table,
            |table| right(table, mail),
        ),
        Misreading::RankOfNext => with_ranks(
            |ranks| [&ranks[1..], &ranks[..1]].concat(),
            table,
            |table| right(table, mail),
        ),
        Misreading::ProbesByRank if verb != Verb::DeliverToItem as u64 => {
            let answer = right(table, mail);
            probes_by_rank(answer.sent.into(), table, mail);
            answer
        }
        _ => right(table, mail),
    }
}

/// A call on a table with other ranks, which stand there for the call alone.
pub fn with_ranks<A>(
    other: impl FnOnce(&[u8]) -> Vec<u8>,
    table: &mut [u8],
    call: impl FnOnce(&mut [u8]) -> A,
) -> A {
    let place = Table::decode(table).map(|r| ranks_at(r.sessions.len(), r.items.len()));
    let Some(place) = place else {
        return call(table);
    };
    let ranks = table[place.clone()].to_vec();
    table[place.clone()].copy_from_slice(&other(&ranks));
    let answer = call(table);
    table[place].copy_from_slice(&ranks);
    answer
}

/// Sorts the probes among the last messages, which a session has just sent.
fn probes_by_rank(sent: usize, table: &[u8], mail: &mut [u8]) {
    if sent == 0 {
        return;
    }
    let records = Table::decode(table).expect("an accepted step");
    let mailbox = Mailbox::decode(mail, records.sessions.len(), records.items.len());
    let mut mailbox = mailbox.expect("an accepted step");
    let first = mailbox.messages.len() - sent;
    mailbox.messages[first..].sort_by_key(|message| match message.body {
        Body::Probe { initiator, .. } => records.ranks.of(initiator),
        _ => 0,
    });
    mailbox.encode(mail);
}

fn at_session(session: fn(Session, u8, u8, Body, &Ranks) -> session::Outcome) -> Policy {
    Policy { session, ..RULES }
}

fn at_item(item: fn(Item, u8, Body, &Ranks) -> item::Outcome) -> Policy {
    Policy { item, ..RULES }
}

/// What the parties do by a misreading.
fn policy(misreading: Misreading) -> Policy {
    match misreading {
        Misreading::VictimForwards => at_session(|mut before, own, from, body, ranks| {
            let stage = before.stage;
            let victim = matches!(stage, Stage::Cleaning | Stage::Withdrawing);
            if !victim || !matches!(body, Body::Probe { .. }) {
                return before.receive(own, from, body, ranks);
            }
            before.stage = Stage::Waiting;
            let mut outcome = before.receive(own, from, body, ranks);
            outcome.session.stage = stage;
            outcome
        }),
        Misreading::RebuildsFromSenderOnly => at_session(|before, own, from, body, ranks| {
            let mut outcome = before.receive(own, from, body, ranks);
            outcome.sends.retain(|(_, sent)| *sent != Body::Rebroadcast);
            outcome
        }),
        Misreading::ReleasesEarly => at_session(|before, own, from, body, ranks| {
            let mut outcome = before.receive(own, from, body, ranks);
            if outcome.branch == SessionBranch::CleanBack {
                let held: Vec<u8> = outcome.session.held_items().collect();
                let releases = held.iter().map(|&item| (item, Body::Release));
                outcome.sends.extend(releases);
                outcome.session.held = 0;
            }
            outcome
        }),
        Misreading::ForwardsUnchanged => at_session(|before, own, from, body, ranks| {
            let mut outcome = before.receive(own, from, body, ranks);
            let known = outcome.branch == SessionBranch::ProbeKnown;
            let waits = outcome.session.stage == Stage::Waiting;
            if let (Body::Probe { initiator, junior }, true) = (body, known && waits) {
                let junior = ranks.more_junior(junior, own);
                let probe = Body::Probe { initiator, junior };
                outcome.sends.push((outcome.session.awaited, probe));
            }
            outcome
        }),
        Misreading::JuniorByNumber => at_session(|before, own, from, body, ranks| match body {
            // Of a session and itself the more junior is that session, by any order.
            Body::Probe { initiator, junior } => {
                let junior = junior.max(own);
                before.receive(junior, from, Body::Probe { initiator, junior }, ranks)
            }
            _ => before.receive(own, from, body, ranks),
        }),
        Misreading::PassesLateProbe => at_item(|mut before, from, body, ranks| {
            if !matches!(body, Body::Probe { .. }) || before.queue.contains(&from) {
                return before.receive(from, body, ranks);
            }
            before.queue.push(from);
            let mut outcome = before.receive(from, body, ranks);
            outcome.item.queue.pop();
            outcome
        }),
        Misreading::FirstInLine => {
            at_item(|before, from, body, ranks| next_holder(|_| 0, before, from, body, ranks))
        }
        Misreading::NextHolderByNumber => at_item(|before, from, body, ranks| {
            let lowest = |queue: &[u8]| (0..queue.len()).min_by_key(|&k| queue[k]).unwrap();
            next_holder(lowest, before, from, body, ranks)
        }),
        _ => RULES,
    }
}

/// An item whose next holder is chosen otherwise: by its place in the queue.
fn next_holder(
    choose: fn(&[u8]) -> usize,
    mut before: Item,
    from: u8,
    body: Body,
    ranks: &Ranks,
) -> item::Outcome {
    if body != Body::Release || from != before.holder || before.queue.is_empty() {
        return before.receive(from, body, ranks);
    }
    let mut others = before.queue;
    before.queue = vec![others.remove(choose(&others))];
    let mut outcome = before.receive(from, body, ranks);
    outcome.item.queue = others;
    // What a release sends behind the grant is what a rebroadcast sends.
    let rest = outcome.item.clone().receive(from, Body::Rebroadcast, ranks);
    outcome.sends.extend(rest.sends);
    outcome
}
