//! Steps: sizes, searches in a full mail, and what parties do. Which branch of a rule
//! a party takes the model says.

use super::group::{met, Group, Place, Places};
use super::{is_largest, Coverage, BY_RANK_AT_LEAST, STEP};
use crate::comparison::Buffers;
use crate::numbers::{delivered_direction, DELIVER_TO_ITEM, RELEASE, REQUEST, TO_ITEM};
use model::branch::{ItemBranch, SessionBranch};
use model::item::{self, Item};
use model::layout::{DIRECTION, MAX_SESSIONS, ROUTE_ITEM, ROUTE_SESSION, ROUTE_SIZE, TABLE_HEADER};
use model::mailbox::{kind, message, Body};
use model::session::{self, Session, Stage};
use model::{Answer, Ranks, Refusal, ACCEPTED};

/// An accepted step.
pub struct Step {
    largest: bool,
    one_by_one: bool,
    capacity: usize,
    /// Messages before and after it.
    count: usize,
    left: usize,
    sent: u8,
}

const SIZES: &[Place<Step>] = &[
    ("64 sessions, 64 items, capacity 4096", |s| s.largest),
    ("64 sessions, 64 items, capacity 4096, mail full", |s| {
        s.largest && s.count == s.capacity
    }),
    ("one session and one item", |s| s.one_by_one),
    ("capacity 1", |s| s.capacity == 1),
    ("capacity 2", |s| s.capacity == 2),
    ("full mail", |s| s.count == s.capacity),
    ("fills the mail", |s| {
        s.count < s.capacity && s.left == s.capacity
    }),
    ("sends 65 messages", |s| s.sent == 65),
    ("sends 100 messages or more", |s| s.sent >= 100),
];

/// A route that was searched for in a full mail of more than 16 messages, half of which
/// goes in one direction.
pub struct Search {
    place: Where,
    /// More than one message is on the route.
    again: bool,
    one_session: bool,
    one_item: bool,
    largest: bool,
}

#[derive(PartialEq)]
enum Where {
    Start,
    Middle,
    End,
    Nowhere,
}

const SEARCHES: &[Place<Search>] = &[
    ("route at the start", |s| s.place == Where::Start),
    ("route in the middle", |s| s.place == Where::Middle),
    ("route at the end", |s| s.place == Where::End),
    ("no such route", |s| s.place == Where::Nowhere),
    ("all of one item, route at the start", |s| {
        s.one_item && s.place == Where::Start
    }),
    ("all of one item, route in the middle", |s| {
        s.one_item && s.place == Where::Middle
    }),
    ("all of one item, route at the end", |s| {
        s.one_item && s.place == Where::End
    }),
    ("all of one item, no such route", |s| {
        s.one_item && s.place == Where::Nowhere
    }),
    ("largest, route at the start", |s| {
        s.largest && s.place == Where::Start
    }),
    ("largest, route in the middle", |s| {
        s.largest && s.place == Where::Middle
    }),
    ("largest, route at the end", |s| {
        s.largest && s.place == Where::End
    }),
    ("largest, no such route", |s| {
        s.largest && s.place == Where::Nowhere
    }),
    ("more than one message on the route", |s| s.again),
    ("all of one session and item", |s| {
        s.one_item && s.one_session
    }),
    ("largest, all of one item", |s| s.largest && s.one_item),
];

/// A session's own step.
pub struct OwnStep {
    verb: u64,
    before: Session,
}

impl OwnStep {
    fn stores(&self) -> bool {
        self.before.probes().next().is_some()
    }
}

const OWN_STEPS: &[Place<OwnStep>] = &[
    ("request: no stored probe", |o| {
        o.verb == REQUEST && !o.stores()
    }),
    ("request: stored probes", |o| {
        o.verb == REQUEST && o.stores()
    }),
    ("release: growing", |o| {
        o.verb == RELEASE && o.before.stage == Stage::Growing
    }),
    ("release: shrinking", |o| {
        o.verb == RELEASE && o.before.stage == Stage::Shrinking
    }),
];

/// The kinds that reach a session.
const KINDS: [(u8, &str); 6] = [
    (kind::PROBE, "probe"),
    (kind::CLEAN, "clean"),
    (kind::GRANT, "grant"),
    (kind::RESEND, "resend"),
    (kind::ABORT, "abort"),
    (kind::WITHDRAWN, "withdrawn"),
];

const STAGES: [&str; 6] = [
    "growing",
    "waiting",
    "shrinking",
    "cleaning",
    "withdrawing",
    "rolled back",
];

/// A delivery to an item.
struct AtItem {
    from: u8,
    before: Item,
    after: item::Outcome,
    closed: bool,
}

impl AtItem {
    fn took(&self, branch: ItemBranch) -> bool {
        self.after.branch == branch
    }

    fn joins(&self) -> bool {
        self.took(ItemBranch::JoinsSenior) || self.took(ItemBranch::JoinsJunior)
    }

    /// A release to an item without a holder that has a queue of so many or more.
    fn unheld_release(&self, queue: usize) -> bool {
        let unheld = self.took(ItemBranch::ReleaseByOther) && self.before.holder == 0;
        unheld && self.before.queue.len() >= queue
    }

    /// The place of the next holder in a queue of two or more, and the last one.
    fn next_holder(&self) -> Option<(usize, usize)> {
        let mut queue = self.before.queue.iter();
        let place = queue.position(|&next| next == self.after.item.holder)?;
        let last = self.before.queue.len() - 1;
        (self.took(ItemBranch::NextHolder) && last > 0).then_some((place, last))
    }

    fn with_probes(&self) -> bool {
        let mut sends = self.after.sends.iter();
        sends.any(|(_, sent)| matches!(sent, Body::Probe { .. }))
    }

    fn waits(&self) -> bool {
        self.before.queue.contains(&self.from)
    }
}

/// What deliveries to an item meet, finer than its branches.
const AT_ITEM: &[Place<AtItem>] = &[
    ("request: no holder but a queue, granted", |d| {
        d.took(ItemBranch::Granted) && !d.before.queue.is_empty()
    }),
    ("request: joins and closes a cycle", |d| {
        d.joins() && d.closed
    }),
    ("request: joins and closes none", |d| d.joins() && !d.closed),
    ("release: no holder but a queue, dropped", |d| {
        d.unheld_release(1)
    }),
    ("release: no holder but a queue of 64, dropped", |d| {
        d.unheld_release(MAX_SESSIONS)
    }),
    ("release: next holder, nobody left waiting", |d| {
        d.took(ItemBranch::NextHolder) && d.after.item.queue.is_empty()
    }),
    ("release: next holder from the front of the queue", |d| {
        d.next_holder().is_some_and(|(place, _)| place == 0)
    }),
    ("release: next holder from the middle of the queue", |d| {
        d.next_holder()
            .is_some_and(|(place, last)| place > 0 && place < last)
    }),
    ("release: next holder from the end of the queue", |d| {
        d.next_holder().is_some_and(|(place, last)| place == last)
    }),
    ("release: next holder from a queue of 63", |d| {
        d.took(ItemBranch::NextHolder) && d.before.queue.len() == MAX_SESSIONS - 1
    }),
    ("clean: from the queue", |d| {
        d.took(ItemBranch::CleanPassed) && d.waits()
    }),
    ("clean: not from the queue", |d| {
        d.took(ItemBranch::CleanPassed) && !d.waits()
    }),
    ("clean: with probes", |d| {
        d.took(ItemBranch::CleanPassed) && d.with_probes()
    }),
    ("clean: without probes", |d| {
        d.took(ItemBranch::CleanPassed) && !d.with_probes()
    }),
    ("rebroadcast: empty queue", |d| {
        d.took(ItemBranch::Rebroadcast) && d.before.queue.is_empty()
    }),
    ("rebroadcast: probes and resends", |d| {
        d.took(ItemBranch::Rebroadcast) && d.with_probes()
    }),
    ("rebroadcast: resends alone", |d| {
        d.took(ItemBranch::Rebroadcast) && !d.before.queue.is_empty() && !d.with_probes()
    }),
];

/// A delivery to a session.
struct AtSession {
    own: u8,
    from: u8,
    body: Body,
    before: Session,
    after: session::Outcome,
    /// The session is junior to the junior of the probe that it receives.
    junior: bool,
}

impl AtSession {
    fn took(&self, branch: SessionBranch) -> bool {
        self.after.branch == branch
    }

    fn probed(&self) -> bool {
        use SessionBranch::{ProbeKnown, ProbeReplaces, ProbeStored};
        [ProbeStored, ProbeReplaces, ProbeKnown].contains(&self.after.branch)
    }

    /// A clean, upon which it rebroadcasts or not.
    fn cleaned(&self, rebroadcasts: bool) -> bool {
        let mut sends = self.after.sends.iter();
        let any = sends.any(|(_, sent)| *sent == Body::Rebroadcast);
        self.took(SessionBranch::Cleaned) && any == rebroadcasts
    }
}

/// What deliveries to a session meet, finer than its branches.
const AT_SESSION: &[Place<AtSession>] = &[
    ("probe: the session itself is the junior", |d| {
        d.probed() && d.junior
    }),
    ("probe: the session is not junior to its junior", |d| {
        d.probed() && !d.junior
    }),
    ("probe: the session itself is the initiator", |d| {
        d.probed() && matches!(d.body, Body::Probe { initiator, .. } if initiator == d.own)
    }),
    ("resend: from the awaited item, probes", |d| {
        d.took(SessionBranch::Resent) && !d.after.sends.is_empty()
    }),
    ("resend: from the awaited item, none stored", |d| {
        d.took(SessionBranch::Resent) && d.after.sends.is_empty()
    }),
    ("clean: nothing to rebroadcast", |d| d.cleaned(false)),
    ("clean: rebroadcasts, sender not held", |d| {
        d.cleaned(true) && !d.before.holds(d.from)
    }),
    ("clean: rebroadcasts, sender held", |d| {
        d.cleaned(true) && d.before.holds(d.from)
    }),
    ("clean: names the session itself before its abort", |d| {
        d.took(SessionBranch::Cleaned)
            && matches!(d.body, Body::Clean { victim, .. } if victim == d.own)
    }),
    ("withdrawn: holds items", |d| {
        d.took(SessionBranch::RolledBack) && d.before.held != 0
    }),
    ("withdrawn: holds none", |d| {
        d.took(SessionBranch::RolledBack) && d.before.held == 0
    }),
];

/// All of these that are settled by seniority.
const BY_RANK: &[&str] = &[
    "request: joins, senior to the holder",
    "request: joins, junior to the holder",
    "release: next holder from the front of the queue",
    "release: next holder from the middle of the queue",
    "release: next holder from the end of the queue",
    "probe: holder senior, dropped",
    "probe: holder junior, passed on",
    "clean: with probes",
    "clean: without probes",
    "rebroadcast: probes and resends",
    "rebroadcast: resends alone",
    "probe: junior to the stored one",
    "probe: not junior to the stored one, dropped",
    "probe: the session itself is the junior",
    "probe: the session is not junior to its junior",
];

pub struct Steps {
    sizes: Places<Step>,
    no_mail: Group,
    searches: Places<Search>,
    own_steps: Places<OwnStep>,
    items: Group,
    pairs: Group,
    sessions: Group,
    by_rank: Group,
}

const NO_MAIL: &str = "mail of length 0";

impl Steps {
    pub fn new() -> Steps {
        let at_item: Vec<_> = AT_ITEM.iter().map(|&(name, _)| name).collect();
        let at_session: Vec<_> = AT_SESSION.iter().map(|&(name, _)| name).collect();
        Steps {
            sizes: Places::new("Accepted steps", 1, SIZES),
            no_mail: Group::new("Refused steps", 1, &[NO_MAIL]),
            searches: Places::new(
                "Deliveries from a full mail of more than 16, half of it in one direction",
                1,
                SEARCHES,
            ),
            own_steps: Places::new("Own steps of a session", 1, OWN_STEPS),
            items: Group::new(
                "Rules of an item, by what it receives",
                1,
                &[ItemBranch::NAMES, &at_item].concat(),
            ),
            pairs: Group::with_columns(
                "Messages delivered to a session, by its stage",
                1,
                &KINDS.map(|(_, name)| name),
                &STAGES,
            ),
            sessions: Group::new(
                "Rules of a session, by what it receives",
                1,
                &[SessionBranch::NAMES, &at_session].concat(),
            ),
            by_rank: Group::new(
                "Of the rules, met by rank and not by number",
                BY_RANK_AT_LEAST,
                BY_RANK,
            ),
        }
    }

    pub fn groups(&self) -> [&Group; 8] {
        [
            &self.sizes.group,
            &self.no_mail,
            &self.searches.group,
            &self.own_steps.group,
            &self.items,
            &self.pairs,
            &self.sessions,
            &self.by_rank,
        ]
    }

    /// A route that was searched for in well-formed mail.
    fn search(&mut self, route: [u8; ROUTE_SIZE], before: &Buffers) {
        let count = before.count();
        let routes = || (0..count).map(|place| before.route(place));
        let to_items = routes().filter(|other| other[DIRECTION] == TO_ITEM);
        if count <= 16 || count != before.capacity() || to_items.count() != count / 2 {
            return;
        }
        let all_of_one = |byte| routes().all(|other| other[byte] == before.route(0)[byte]);
        self.searches.meet(&Search {
            place: match routes().position(|other| other == route) {
                Some(0) => Where::Start,
                Some(place) if place < count - 1 => Where::Middle,
                Some(_) => Where::End,
                None => Where::Nowhere,
            },
            again: routes().filter(|&other| other == route).count() > 1,
            one_session: all_of_one(ROUTE_SESSION),
            one_item: all_of_one(ROUTE_ITEM),
            largest: is_largest(before),
        });
    }

    fn delivered(&mut self, route: [u8; ROUTE_SIZE], before: &Buffers, answer: Answer) {
        let [direction, session, item] = route;
        let mut places = 0..before.count();
        let place = places.find(|&place| before.route(place) == route);
        let body = message(&before.mail, place.expect("an accepted delivery")).body;
        if direction == TO_ITEM {
            let record = before.item_record(item);
            let by = |ranks: &Ranks| at_item(ranks, session, &record, body, answer);
            count_by_rank(&mut self.items, &mut self.by_rank, before, by);
        } else {
            let record = before.session_record(session);
            let kind = KINDS.iter().find(|&&(kind, _)| kind == body.kind());
            let (_, kind) = kind.expect("a kind that reaches a session");
            self.pairs.hit_at(kind, record.stage as usize - 1);
            let by = |ranks: &Ranks| at_session(ranks, session, item, &record, body);
            count_by_rank(&mut self.sessions, &mut self.by_rank, before, by);
        }
    }
}

impl Coverage {
    pub(crate) fn step(&mut self, numbers: [u64; 3], before: &Buffers, answer: Answer) {
        self.count(STEP, answer.refusal, &numbers, before);
        let steps = &mut self.steps;
        if before.mail.is_empty() {
            steps.no_mail.hit(NO_MAIL);
        }
        let [verb, session, item] = numbers;
        let (session, item) = (session as u8, item as u8);
        let searched = [ACCEPTED, Refusal::NoMessage as u8].contains(&answer.refusal);
        let route = delivered_direction(verb).map(|direction| [direction, session, item]);
        if let (true, Some(route)) = (searched, route) {
            steps.search(route, before);
        }
        if answer.refusal != ACCEPTED {
            return;
        }
        let taken = usize::from(verb >= DELIVER_TO_ITEM);
        steps.sizes.meet(&Step {
            largest: is_largest(before),
            one_by_one: before.table[..TABLE_HEADER] == [1, 1],
            capacity: before.capacity(),
            count: before.count(),
            left: before.count() - taken + usize::from(answer.sent),
            sent: answer.sent,
        });
        match route {
            Some(route) => steps.delivered(route, before, answer),
            None => steps.own_steps.meet(&OwnStep {
                verb,
                before: before.session_record(session),
            }),
        }
    }
}

/// Counts what a delivery meets by the ranks of the table and, apart, what of it would
/// not be met by number.
fn count_by_rank(
    group: &mut Group,
    by_rank: &mut Group,
    before: &Buffers,
    met: impl Fn(&Ranks) -> Vec<&'static str>,
) {
    let ranks = Ranks::decode(before.ranks()).expect("an accepted step");
    let by_number = met(&Ranks::plain(before.ranks().len()));
    for name in met(&ranks) {
        group.hit(name);
        if !by_number.contains(&name) {
            by_rank.hit(name);
        }
    }
}

fn at_item(
    ranks: &Ranks,
    from: u8,
    before: &Item,
    body: Body,
    answer: Answer,
) -> Vec<&'static str> {
    let delivery = AtItem {
        from,
        before: before.clone(),
        after: before.clone().receive(from, body, ranks),
        closed: answer.closed == 1,
    };
    let mut names = met(AT_ITEM, &delivery);
    names.push(delivery.after.branch.name());
    names
}

fn at_session(ranks: &Ranks, own: u8, from: u8, before: &Session, body: Body) -> Vec<&'static str> {
    let delivery = AtSession {
        own,
        from,
        body,
        before: before.clone(),
        after: before.clone().receive(own, from, body, ranks),
        junior: matches!(body, Body::Probe { junior, .. } if ranks.senior(junior, own)),
    };
    let mut names = met(AT_SESSION, &delivery);
    names.push(delivery.after.branch.name());
    names
}
