//! Buffers that no list of steps need reach: well-formed ones with any records
//! and messages, and ones with the form broken.

use crate::comparison::{queue, Buffers};
use crate::numbers::{
    kind, CLEANING, GROWING, ROLLED_BACK, SHRINKING, TO_ITEM, TO_SESSION, WAITING, WITHDRAWING,
};
use model::layout::{
    body_at, mail_length, route_at, routes_end, AWAITED, BODY_A, BODY_B, BODY_SIZE, DIRECTION,
    HELD, HOLDER, JUNIORS, KIND, MAX_ITEMS, MAX_SESSIONS, QUEUE, QUEUE_LENGTH, ROUTE_ITEM,
    ROUTE_SESSION, ROUTE_SIZE, STAGE,
};
use model::mailbox::{self, Direction};
use model::names::{by_message, Named, Part};
use model::scenario::Random;
use model::{Config, Ranks, Refusal};

/// A plain config: mostly small numbers, so that messages and records often fit
/// each other.
pub fn config(random: &mut Random) -> Config<'static> {
    let number = |random: &mut Random, max| match random.between(1, 20) {
        1 => random.between(9, max),
        2..=5 => random.between(4, 8),
        _ => random.between(1, 3),
    };
    let sessions = number(random, Config::LARGEST.sessions);
    let items = number(random, Config::LARGEST.items);
    let capacity = match random.between(1, 10) {
        1 => 1,
        2 => 2,
        3 => random.between(17, 100),
        _ => random.between(3, 16),
    };
    Config::plain(sessions, items, capacity)
}

/// Ranks for so many sessions: plain, reversed or in any order, which for few is
/// often one of the two.
pub fn ranks(random: &mut Random, sessions: u64) -> Vec<u8> {
    let mut plain = Ranks::plain_list(sessions as usize).to_vec();
    match random.between(1, if sessions > 8 { 3 } else { 6 }) {
        1 => plain,
        2 => {
            plain.reverse();
            plain
        }
        _ => random.order(sessions),
    }
}

/// How many of something there are.
#[derive(Clone, Copy, PartialEq, Eq, Debug)]
pub enum Filling {
    None,
    Few,
    Any,
    All,
}

impl Filling {
    pub fn draw(random: &mut Random) -> Filling {
        match random.between(1, 4) {
            1 => Filling::None,
            2 => Filling::Few,
            3 => Filling::Any,
            _ => Filling::All,
        }
    }

    /// A number up to `max`.
    pub fn of(self, random: &mut Random, max: u64) -> u64 {
        match self {
            Filling::None => 0,
            Filling::Few => random.between(0, max.min(3)),
            Filling::Any => random.between(0, max),
            Filling::All => max,
        }
    }
}

/// Any well-formed buffers with the numbers of a config, any ranks and so many
/// messages.
pub fn well_formed(random: &mut Random, config: &Config, messages: u64) -> Buffers {
    let mut buffers = Buffers::filled(config, 0);
    buffers.set_config(config);
    for session in 1..=config.sessions as usize {
        session_record(random, config, buffers.session_mut(session));
    }
    for item in 1..=config.items as usize {
        item_record(random, config, buffers.item_mut(item));
    }
    buffers.set_count(messages as usize);
    for place in 0..messages as usize {
        let (route, body) = message(random, config);
        buffers.set_message(place, route, body);
    }
    buffers.set_ranks(&ranks(random, config.sessions));
    buffers
}

/// The stages that await an item, and the others.
const AWAITING: [u8; 3] = [WAITING, CLEANING, WITHDRAWING];
const AT_REST: [u8; 3] = [GROWING, SHRINKING, ROLLED_BACK];

fn session_record(random: &mut Random, config: &Config, record: &mut [u8]) {
    // Growing and waiting more often than the rest.
    let stage = match random.between(1, 9) as u8 {
        7 | 8 => WAITING,
        9 => GROWING,
        stage => stage,
    };
    record[STAGE] = stage;
    if AWAITING.contains(&stage) {
        record[AWAITED] = config.any_item(random) as u8;
    }
    let held = match Filling::draw(random) {
        Filling::None => 0,
        Filling::Few => random.bits() & random.bits() & random.bits(),
        Filling::Any => random.bits(),
        Filling::All => !0,
    };
    let known = !0 >> (MAX_ITEMS as u64 - config.items);
    record[HELD].copy_from_slice(&(held & known).to_le_bytes());
    let filling = Filling::draw(random);
    for junior in &mut record[JUNIORS][..config.sessions as usize] {
        let stored = match filling {
            Filling::None => false,
            Filling::Few => random.one_in(8),
            Filling::Any => random.one_in(2),
            Filling::All => true,
        };
        if stored {
            *junior = config.any_session(random) as u8;
        }
    }
}

fn item_record(random: &mut Random, config: &Config, record: &mut [u8]) {
    let holder = match random.between(1, 5) {
        1 => 0,
        _ => config.any_session(random),
    };
    let others = config.sessions - u64::from(holder != 0);
    let length = Filling::draw(random).of(random, others) as usize;
    set_item(random, config, record, holder as u8, length);
}

/// An item with this holder, or 0, for which so many others wait, in any order.
pub fn set_item(
    random: &mut Random,
    config: &Config,
    record: &mut [u8],
    holder: u8,
    length: usize,
) {
    let others = (1..=config.sessions as u8).filter(|&session| session != holder);
    record.fill(0);
    record[HOLDER] = holder;
    set_queue(record, &random.some_of(others.collect(), length));
}

fn set_queue(record: &mut [u8], queue: &[u8]) {
    record[QUEUE_LENGTH] = queue.len() as u8;
    record[QUEUE].fill(0);
    record[QUEUE][..queue.len()].copy_from_slice(queue);
}

/// Well-formed buffers in which so many sessions wait in a cycle; one of them.
/// They may stand in other queues too: in those of items that nobody holds, and
/// of higher-numbered ones than the one at which they wait.
pub fn cycle(random: &mut Random, config: &Config, members: usize) -> (Buffers, u8) {
    let mut buffers = well_formed(random, config, 0);
    let sessions = random.some_of((1..=config.sessions as u8).collect(), members);
    let items = random.some_of((1..=config.items as u8).collect(), members);
    let holders = sessions.iter().cycle().skip(1);
    for (&item, &holder) in items.iter().zip(holders) {
        let others = Filling::draw(random).of(random, config.sessions - 1) as usize;
        set_item(
            random,
            config,
            buffers.item_mut(item.into()),
            holder,
            others,
        );
    }
    for (&session, &last) in sessions.iter().zip(&items) {
        for item in 1..=last {
            let record = buffers.item_mut(item.into());
            let mut queue = queue(record).to_vec();
            if item == last && !queue.contains(&session) {
                queue.push(session);
            }
            if item < last && record[HOLDER] != 0 {
                queue.retain(|&waiting| waiting != session);
            }
            set_queue(record, &queue);
        }
    }
    (buffers, sessions[0])
}

const KINDS_TO_ITEM: [u8; 6] = [
    kind::REQUEST,
    kind::RELEASE,
    kind::PROBE,
    kind::CLEAN,
    kind::REBROADCAST,
    kind::WITHDRAW,
];
const KINDS_TO_SESSION: [u8; 6] = [
    kind::PROBE,
    kind::CLEAN,
    kind::GRANT,
    kind::RESEND,
    kind::ABORT,
    kind::WITHDRAWN,
];

/// Whether a and b are sessions in messages of this kind.
fn has_sessions(kind: u8) -> bool {
    matches!(kind, kind::PROBE | kind::CLEAN | kind::ABORT)
}

fn message(random: &mut Random, config: &Config) -> ([u8; ROUTE_SIZE], [u8; BODY_SIZE]) {
    let direction = if random.one_in(2) {
        TO_ITEM
    } else {
        TO_SESSION
    };
    let session = config.any_session(random) as u8;
    let item = config.any_item(random) as u8;
    let route = [direction, session, item];
    (route, body(random, config, route))
}

/// Any body that a message on this route can have.
fn body(random: &mut Random, config: &Config, route: [u8; ROUTE_SIZE]) -> [u8; BODY_SIZE] {
    let kinds = if route[DIRECTION] == TO_ITEM {
        KINDS_TO_ITEM
    } else {
        KINDS_TO_SESSION
    };
    let kind = kinds[random.between(0, kinds.len() as u64 - 1) as usize];
    let mut body = [kind, 0, 0];
    if has_sessions(kind) {
        body[BODY_A] = config.any_session(random) as u8;
        body[BODY_B] = config.any_session(random) as u8;
    }
    if kind == kind::ABORT || kind == kind::CLEAN && random.one_in(3) {
        body[BODY_A] = route[ROUTE_SESSION];
    }
    body
}

/// The routes of the messages in a full mail.
#[derive(Clone, Copy, PartialEq, Eq, Debug)]
pub enum Routes {
    Any,
    OneItem,
    OneSessionAndItem,
}

/// Any well-formed buffers with a full mail, half of which goes in one direction.
pub fn full_mail(random: &mut Random, config: &Config, routes: Routes) -> Buffers {
    let mut buffers = well_formed(random, config, 0);
    buffers.set_count(config.capacity as usize);
    let one_session = config.any_session(random) as u8;
    let one_item = config.any_item(random) as u8;
    let mut to_items = config.capacity / 2;
    for place in 0..buffers.count() {
        let direction = if random.between(1, config.capacity - place as u64) <= to_items {
            to_items -= 1;
            TO_ITEM
        } else {
            TO_SESSION
        };
        let session = config.any_session(random) as u8;
        let route = match routes {
            Routes::Any => [direction, session, config.any_item(random) as u8],
            Routes::OneItem => [direction, session, one_item],
            Routes::OneSessionAndItem => [direction, one_session, one_item],
        };
        buffers.set_message(place, route, body(random, config, route));
    }
    buffers
}

/// Moves the messages on a route, but for the one kept, to another session or,
/// where there is none, to another item or the other direction, with new bodies.
pub fn clear_route(
    random: &mut Random,
    config: &Config,
    buffers: &mut Buffers,
    route: [u8; ROUTE_SIZE],
    kept: Option<usize>,
) {
    let [direction, session, item] = route;
    let other = |random: &mut Random, number: u8, max: u64| {
        let steps = random.between(1, max - 1);
        ((u64::from(number) - 1 + steps) % max + 1) as u8
    };
    for moved in 0..buffers.count() {
        if Some(moved) == kept || buffers.route(moved) != route {
            continue;
        }
        let route = if config.sessions > 1 {
            [direction, other(random, session, config.sessions), item]
        } else if config.items > 1 {
            [direction, session, other(random, item, config.items)]
        } else {
            [TO_ITEM + TO_SESSION - direction, session, item]
        };
        buffers.set_message(moved, route, body(random, config, route));
    }
}

const fn to_item(part: Part, kind: u8) -> Named {
    Named::Message {
        part,
        direction: Direction::ToItem,
        kind,
    }
}

const fn to_session(part: Part, kind: u8) -> Named {
    Named::Message {
        part,
        direction: Direction::ToSession,
        kind,
    }
}

const fn probe(own: bool, initiator: bool) -> Named {
    Named::Probe { own, initiator }
}

/// All places at which a session can be named. The route and the a of an abort are one.
pub const NAMED: [(&str, Named); 27] = [
    ("route: request", to_item(Part::Route, kind::REQUEST)),
    ("route: release", to_item(Part::Route, kind::RELEASE)),
    ("route: probe to an item", to_item(Part::Route, kind::PROBE)),
    ("route: clean to an item", to_item(Part::Route, kind::CLEAN)),
    (
        "route: rebroadcast",
        to_item(Part::Route, kind::REBROADCAST),
    ),
    ("route: withdraw", to_item(Part::Route, kind::WITHDRAW)),
    (
        "route: probe to a session",
        to_session(Part::Route, kind::PROBE),
    ),
    (
        "route: clean to a session",
        to_session(Part::Route, kind::CLEAN),
    ),
    ("route: grant", to_session(Part::Route, kind::GRANT)),
    ("route: resend", to_session(Part::Route, kind::RESEND)),
    ("route and a: abort", to_session(Part::Route, kind::ABORT)),
    ("route: withdrawn", to_session(Part::Route, kind::WITHDRAWN)),
    ("a: probe to an item", to_item(Part::A, kind::PROBE)),
    ("a: probe to a session", to_session(Part::A, kind::PROBE)),
    ("a: clean to an item", to_item(Part::A, kind::CLEAN)),
    ("a: clean to a session", to_session(Part::A, kind::CLEAN)),
    ("b: probe to an item", to_item(Part::B, kind::PROBE)),
    ("b: probe to a session", to_session(Part::B, kind::PROBE)),
    ("b: clean to an item", to_item(Part::B, kind::CLEAN)),
    ("b: clean to a session", to_session(Part::B, kind::CLEAN)),
    ("b: abort", to_session(Part::B, kind::ABORT)),
    ("in a queue", Named::Queue),
    ("a holder", Named::Holder),
    ("probe of another: initiator", probe(false, true)),
    ("probe of another: junior", probe(false, false)),
    ("probe of its own: initiator", probe(true, true)),
    ("probe of its own: junior", probe(true, false)),
];

/// Well-formed buffers that do not name this session, which is shrinking and holds
/// nothing or is rolled back: it may be reopened. It can have stored probes and,
/// if it is rolled back, items in its mask. Every message names a session, so
/// there is none where it is the only one.
pub fn reopenable(
    random: &mut Random,
    config: &Config,
    messages: u64,
    session: u8,
    stage: u8,
) -> Buffers {
    let messages = if config.sessions > 1 { messages } else { 0 };
    let mut buffers = well_formed(random, config, messages);
    for owner in 1..=config.sessions as usize {
        let juniors = &mut buffers.session_mut(owner)[JUNIORS];
        juniors[usize::from(session) - 1] = 0;
        for junior in juniors.iter_mut().filter(|junior| **junior == session) {
            *junior = 0;
        }
    }
    for item in 1..=config.items as usize {
        let record = buffers.item_mut(item);
        if record[HOLDER] == session {
            record[HOLDER] = 0;
        }
        let mut queue = queue(record).to_vec();
        queue.retain(|&waiting| waiting != session);
        set_queue(record, &queue);
    }
    for place in 0..buffers.count() {
        while !by_message(mailbox::message(&buffers.mail, place), session).is_empty() {
            let (route, body) = message(random, config);
            buffers.set_message(place, route, body);
        }
    }
    let record = buffers.session_mut(session.into());
    record[STAGE] = stage;
    record[AWAITED] = 0;
    if stage == SHRINKING {
        record[HELD].fill(0);
    }
    buffers
}

/// Any session but this one. There must be another.
fn other(random: &mut Random, config: &Config, session: u8) -> u8 {
    let steps = random.between(1, config.sessions - 1);
    ((u64::from(session) - 1 + steps) % config.sessions + 1) as u8
}

/// A session stores a probe that does not name it.
pub fn store_other(random: &mut Random, config: &Config, buffers: &mut Buffers, session: u8) {
    let [initiator, junior] = [0; 2].map(|_| other(random, config, session));
    buffers.session_mut(session.into())[JUNIORS][usize::from(initiator) - 1] = junior;
}

/// Names a session at one place more. There must be another session.
pub fn name(
    random: &mut Random,
    config: &Config,
    buffers: &mut Buffers,
    session: u8,
    named: Named,
) {
    let [one, another] = [0; 2].map(|_| other(random, config, session));
    let item = config.any_item(random);
    match named {
        Named::Message {
            part,
            direction,
            kind,
        } => {
            let mut route = [direction as u8, one, item as u8];
            let mut body = [kind, 0, 0];
            if has_sessions(kind) {
                body = [kind, another, one];
            }
            match part {
                Part::Route => route[ROUTE_SESSION] = session,
                Part::A => body[BODY_A] = session,
                Part::B => body[BODY_B] = session,
            }
            if kind == kind::ABORT {
                body[BODY_A] = route[ROUTE_SESSION];
            }
            let last = buffers.count().max(1) - 1;
            buffers.set_count(last + 1);
            let place = match random.between(1, 4) {
                1 => 0,
                2 => last,
                _ => random.between(0, last as u64) as usize,
            };
            buffers.set_message(place, route, body);
        }
        Named::Queue => {
            let record = buffers.item_mut(item as usize);
            let mut queue = queue(record).to_vec();
            let place = random.between(0, queue.len() as u64) as usize;
            queue.insert(place, session);
            set_queue(record, &queue);
        }
        Named::Holder => buffers.item_mut(item as usize)[HOLDER] = session,
        Named::Probe { own, initiator } => {
            let owner = if own { session } else { one };
            let (initiator, junior) = if initiator {
                (session, another)
            } else {
                (another, session)
            };
            let juniors = &mut buffers.session_mut(owner.into())[JUNIORS];
            juniors[usize::from(initiator) - 1] = junior;
        }
    }
}

/// What goes along with cleans that circle.
#[derive(Clone, Copy, PartialEq, Eq, Debug)]
pub enum Beside {
    /// Each delivery of a clean sends one message.
    Nothing,
    /// Messages that are dropped.
    Dropped,
    /// Any queues, held items and messages.
    Anything,
}

/// Well-formed buffers with cleans that circle for ever: sessions 1 to n wait,
/// each for an item that the next one holds.
pub fn circling(random: &mut Random, config: &Config, messages: u64, beside: Beside) -> Buffers {
    let mut buffers = well_formed(random, config, messages);
    let n = random.between(1, config.sessions.min(config.items)) as u8;
    let holder = |item| item % n + 1;
    for k in 1..=n {
        let record = buffers.session_mut(k.into());
        record[STAGE] = WAITING;
        record[AWAITED] = k;
        if beside == Beside::Anything {
            let queue = Filling::draw(random).of(random, config.sessions - 1) as usize;
            set_item(random, config, buffers.item_mut(k.into()), holder(k), queue);
        } else {
            record[HELD].fill(0);
            set_item(random, config, buffers.item_mut(k.into()), holder(k), 0);
        }
    }
    for place in 0..messages as usize {
        let k = random.between(1, n.into()) as u8;
        let route = if random.one_in(2) {
            [TO_ITEM, k, k]
        } else {
            [TO_SESSION, holder(k), k]
        };
        let [victim, initiator] = [0, 1].map(|_| config.any_session(random) as u8);
        if beside == Beside::Nothing || !random.one_in(4) {
            buffers.set_message(place, route, [kind::CLEAN, victim, initiator]);
        } else if beside == Beside::Dropped {
            // A session that waits drops it.
            buffers.set_message(place, [TO_SESSION, k, k], [kind::WITHDRAWN, 0, 0]);
        }
    }
    buffers
}

/// A way to break the form of well-formed buffers: what must then be answered
/// to a step whose verb and lengths are right, to a drain, to a reopening and,
/// where it is the table, to a report and a text.
pub struct Break {
    pub name: &'static str,
    pub refusal: Refusal,
    /// False if these buffers cannot be broken in this way.
    apply: fn(&mut Target) -> bool,
}

impl Break {
    pub fn apply(&self, random: &mut Random, config: &Config, buffers: &mut Buffers) -> bool {
        (self.apply)(&mut Target {
            random,
            config,
            buffers,
        })
    }
}

const fn table(name: &'static str, apply: fn(&mut Target) -> bool) -> Break {
    Break {
        name,
        refusal: Refusal::BadTable,
        apply,
    }
}

const fn mail(name: &'static str, apply: fn(&mut Target) -> bool) -> Break {
    Break {
        name,
        refusal: Refusal::BadMail,
        apply,
    }
}

/// A byte of a message, by its place in the route or in the body.
#[derive(Clone, Copy)]
enum Byte {
    Route(usize),
    Body(usize),
}

/// Well-formed buffers that are about to be broken. What sets a byte answers
/// whether it could.
struct Target<'a> {
    random: &'a mut Random,
    config: &'a Config<'a>,
    buffers: &'a mut Buffers,
}

impl Target<'_> {
    fn any_session(&mut self) -> u8 {
        self.config.any_session(self.random) as u8
    }

    fn any_item(&mut self) -> u8 {
        self.config.any_item(self.random) as u8
    }

    fn one_of<const N: usize>(&mut self, bytes: [u8; N]) -> u8 {
        bytes[self.random.between(0, N as u64 - 1) as usize]
    }

    /// A number above `max`, often by 1, that a byte can hold.
    fn above(&mut self, max: u64) -> u8 {
        match self.random.between(1, 3) {
            1 => (max + 1) as u8,
            2 => u8::MAX,
            _ => self.random.between(max + 1, u8::MAX.into()) as u8,
        }
    }

    fn above_sessions(&mut self) -> u8 {
        self.above(self.config.sessions)
    }

    fn above_items(&mut self) -> u8 {
        self.above(self.config.items)
    }

    /// A byte other than 0.
    fn some(&mut self) -> u8 {
        match self.random.between(1, 3) {
            1 => 1,
            2 => 0x80,
            _ => self.random.between(1, u8::MAX.into()) as u8,
        }
    }

    /// Two drawn numbers, for places in a list.
    fn draws(&mut self) -> [usize; 2] {
        [0; 2].map(|_| self.random.bits() as usize)
    }

    /// Any session's record.
    fn session(&mut self) -> &mut [u8] {
        let session = self.any_session();
        self.buffers.session_mut(session.into())
    }

    /// Any item's record.
    fn item(&mut self) -> &mut [u8] {
        let item = self.any_item();
        self.buffers.item_mut(item.into())
    }

    fn set_session(&mut self, field: usize, byte: u8) -> bool {
        self.session()[field] = byte;
        true
    }

    fn set_item(&mut self, field: usize, byte: u8) -> bool {
        self.item()[field] = byte;
        true
    }

    /// A session in one of these stages that awaits this item.
    fn set_awaited(&mut self, stages: [u8; 3], item: u8) -> bool {
        let stage = self.one_of(stages);
        let record = self.session();
        record[STAGE] = stage;
        record[AWAITED] = item;
        true
    }

    /// The rank of any session.
    fn set_rank(&mut self, rank: u8) -> bool {
        let session = usize::from(self.any_session());
        self.buffers.ranks_mut()[session - 1] = rank;
        true
    }

    fn set_junior(&mut self, initiator: u64, junior: u8) -> bool {
        self.set_session(JUNIORS.start + initiator as usize - 1, junior)
    }

    /// A session in some place of some queue: the given one, or the holder.
    fn set_waiting(&mut self, given: Option<u8>) -> bool {
        let draw = self.random.bits() as usize;
        let record = self.item();
        let length = usize::from(record[QUEUE_LENGTH]);
        if length == 0 || given.is_none() && record[HOLDER] == 0 {
            return false;
        }
        record[QUEUE][draw % length] = given.unwrap_or(record[HOLDER]);
        true
    }

    /// Sets a byte of a message that fits.
    fn set_message(&mut self, byte: Byte, value: u8, fits: impl Fn(&[u8], &[u8]) -> bool) -> bool {
        let (capacity, count) = (self.buffers.capacity(), self.buffers.count());
        let Some(last) = count.checked_sub(1) else {
            return false;
        };
        let first = self.random.between(0, last as u64) as usize;
        let found = (first..count)
            .chain(0..first)
            .find(|&place| fits(self.buffers.route(place), self.buffers.body(place)));
        let Some(place) = found else {
            return false;
        };
        let at = match byte {
            Byte::Route(field) => route_at(place).start + field,
            Byte::Body(field) => body_at(capacity, place).start + field,
        };
        self.buffers.mail[at] = value;
        true
    }

    /// Sets a byte of any message.
    fn set_any_message(&mut self, byte: Byte, value: u8) -> bool {
        self.set_message(byte, value, |_, _| true)
    }

    /// a or b of a message.
    fn a_or_b(&mut self) -> Byte {
        Byte::Body(self.one_of([BODY_A as u8, BODY_B as u8]).into())
    }

    /// Sets a byte behind the used entries of one array, which go from `begin`
    /// to `end`.
    fn set_unused(&mut self, begin: usize, end: usize) -> bool {
        if begin == end {
            return false;
        }
        let place = match self.random.between(1, 4) {
            1 => begin,
            2 => end - 1,
            _ => self.random.between(begin as u64, end as u64 - 1) as usize,
        };
        self.buffers.mail[place] = self.some();
        true
    }
}

/// Makes one byte of a list equal to another, if there are two.
fn repeat(list: &mut [u8], [first, apart]: [usize; 2]) -> bool {
    let length = list.len();
    if length < 2 {
        return false;
    }
    let first = first % length;
    list[(first + 1 + apart % (length - 1)) % length] = list[first];
    true
}

/// All ways.
pub fn breaks() -> impl Iterator<Item = &'static Break> {
    BREAKS.iter().chain(RANK_BREAKS)
}

/// Those that break the ranks, of two sessions or more.
pub const RANK_BREAKS: &[Break] = &[
    table("a rank twice", |t| {
        let draws = t.draws();
        repeat(t.buffers.ranks_mut(), draws)
    }),
    table("rank 0", |t| t.set_rank(0)),
    table("rank S + 1", |t| t.set_rank(t.config.sessions as u8 + 1)),
    table("rank above S + 1", |t| {
        let rank = t.above(t.config.sessions + 1);
        t.set_rank(rank)
    }),
];

/// Those that break the records or the mail.
const BREAKS: &[Break] = &[
    table("stage 0", |t| t.set_session(STAGE, 0)),
    table("stage above 6", |t| {
        let stage = t.above(ROLLED_BACK.into());
        t.set_session(STAGE, stage)
    }),
    table("awaited item 0 in stage 2, 4 or 5", |t| {
        t.set_awaited(AWAITING, 0)
    }),
    table("awaited item above M", |t| {
        let item = t.above_items();
        t.set_awaited(AWAITING, item)
    }),
    table("awaited item in stage 1, 3 or 6", |t| {
        let item = t.any_item();
        t.set_awaited(AT_REST, item)
    }),
    table("held item above M", |t| {
        let (items, last) = (t.config.items, MAX_ITEMS as u64 - 1);
        if items > last {
            return false;
        }
        let bit = match t.random.between(1, 3) {
            1 => items,
            2 => last,
            _ => t.random.between(items, last),
        };
        t.session()[HELD][bit as usize / 8] |= 1 << (bit % 8);
        true
    }),
    table("junior above S", |t| {
        let (initiator, junior) = (t.any_session(), t.above_sessions());
        t.set_junior(initiator.into(), junior)
    }),
    table("junior for an initiator above S", |t| {
        let (sessions, last) = (t.config.sessions, MAX_SESSIONS as u64);
        if sessions == last {
            return false;
        }
        let (initiator, junior) = (t.random.between(sessions + 1, last), t.any_session());
        t.set_junior(initiator, junior)
    }),
    table("holder above S", |t| {
        let holder = t.above_sessions();
        t.set_item(HOLDER, holder)
    }),
    table("queue longer than its sessions", |t| {
        let more = t.random.between(1, 3) as u8;
        t.item()[QUEUE_LENGTH] += more;
        true
    }),
    table("queue of more than 64", |t| {
        let length = t.above(MAX_SESSIONS as u64);
        t.set_item(QUEUE_LENGTH, length)
    }),
    table("queue shorter than its sessions", |t| {
        let record = t.item();
        let some = record[QUEUE_LENGTH] > 0;
        record[QUEUE_LENGTH] = record[QUEUE_LENGTH].saturating_sub(1);
        some
    }),
    table("session 0 in a queue", |t| t.set_waiting(Some(0))),
    table("session above S in a queue", |t| {
        let session = t.above_sessions();
        t.set_waiting(Some(session))
    }),
    table("a session twice in a queue", |t| {
        let draws = t.draws();
        let record = t.item();
        let length = usize::from(record[QUEUE_LENGTH]);
        repeat(&mut record[QUEUE][..length], draws)
    }),
    table("the holder in its own queue", |t| t.set_waiting(None)),
    table("a byte behind a queue", |t| {
        let (draw, byte) = (t.random.bits() as usize, t.some());
        let record = t.item();
        let length = usize::from(record[QUEUE_LENGTH]);
        let unused = &mut record[QUEUE][length..];
        if unused.is_empty() {
            return false;
        }
        unused[draw % unused.len()] = byte;
        true
    }),
    mail("count above C", |t| {
        let (above, last) = (t.config.capacity + 1, u16::MAX.into());
        let count = match t.random.between(1, 3) {
            1 => above,
            2 => last,
            _ => t.random.between(above, last),
        };
        t.buffers.set_count(count as usize);
        true
    }),
    mail("count above the messages", |t| {
        let count = t.buffers.count() + 1;
        t.buffers.set_count(count);
        count <= t.buffers.capacity()
    }),
    mail("count below the messages", |t| {
        let count = t.buffers.count();
        t.buffers.set_count(count.saturating_sub(1));
        count > 0
    }),
    mail("direction 0", |t| {
        t.set_any_message(Byte::Route(DIRECTION), 0)
    }),
    mail("direction above 2", |t| {
        let direction = t.above(TO_SESSION.into());
        t.set_any_message(Byte::Route(DIRECTION), direction)
    }),
    mail("message of session 0", |t| {
        t.set_any_message(Byte::Route(ROUTE_SESSION), 0)
    }),
    mail("message of a session above S", |t| {
        let session = t.above_sessions();
        t.set_any_message(Byte::Route(ROUTE_SESSION), session)
    }),
    mail("message of item 0", |t| {
        t.set_any_message(Byte::Route(ROUTE_ITEM), 0)
    }),
    mail("message of an item above M", |t| {
        let item = t.above_items();
        t.set_any_message(Byte::Route(ROUTE_ITEM), item)
    }),
    mail("kind 0", |t| t.set_any_message(Byte::Body(KIND), 0)),
    mail("kind above 10", |t| {
        let kind = t.above(kind::WITHDRAWN.into());
        t.set_any_message(Byte::Body(KIND), kind)
    }),
    mail("kind 1, 2, 5 or 6 to a session", |t| {
        t.set_message(Byte::Route(DIRECTION), TO_SESSION, |_, body| {
            !KINDS_TO_SESSION.contains(&body[KIND])
        })
    }),
    mail("kind 7 to 10 to an item", |t| {
        t.set_message(Byte::Route(DIRECTION), TO_ITEM, |_, body| {
            !KINDS_TO_ITEM.contains(&body[KIND])
        })
    }),
    mail("a or b of 0 in a probe, clean or abort", |t| {
        let byte = t.a_or_b();
        t.set_message(byte, 0, |_, body| has_sessions(body[KIND]))
    }),
    mail("a or b above S in a probe, clean or abort", |t| {
        let (byte, session) = (t.a_or_b(), t.above_sessions());
        t.set_message(byte, session, |_, body| has_sessions(body[KIND]))
    }),
    mail("a or b in another kind", |t| {
        let (byte, session) = (t.a_or_b(), t.any_session());
        t.set_message(byte, session, |_, body| !has_sessions(body[KIND]))
    }),
    mail("abort to another than its victim", |t| {
        let victim = t.any_session();
        t.set_message(Byte::Body(BODY_A), victim, |route, body| {
            body[KIND] == kind::ABORT && route[ROUTE_SESSION] != victim
        })
    }),
    mail("a byte in an unused route", |t| {
        let (capacity, count) = (t.buffers.capacity(), t.buffers.count());
        t.set_unused(route_at(count).start, routes_end(capacity))
    }),
    mail("a byte in an unused body", |t| {
        let (capacity, count) = (t.buffers.capacity(), t.buffers.count());
        t.set_unused(body_at(capacity, count).start, mail_length(capacity))
    }),
];
