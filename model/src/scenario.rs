//! Random runs of the lock manager from its start, each settled by a seed,
//! with demand 3 checked after every step and for every step of a drain. In some
//! of them sessions are reopened, again and again.

use crate::answers::{Answer, Ending, Refusal, Verb, ACCEPTED};
use crate::calls::{start, Calls};
use crate::config::Config;
use crate::demand3::Demand3;
use crate::mailbox::{count, Body, Mailbox, Message, Route};
use crate::names::by_message;
use crate::policy::RULES;
use crate::ranks::Ranks;
use crate::session::Stage;
use crate::table::Table;

/// A small random number generator (splitmix64).
pub struct Random(u64);

impl Random {
    pub fn new(seed: u64) -> Random {
        Random(seed)
    }

    pub fn bits(&mut self) -> u64 {
        self.0 = self.0.wrapping_add(0x9E37_79B9_7F4A_7C15);
        let mut z = self.0;
        z = (z ^ (z >> 30)).wrapping_mul(0xBF58_476D_1CE4_E5B9);
        z = (z ^ (z >> 27)).wrapping_mul(0x94D0_49BB_1331_11EB);
        z ^ (z >> 31)
    }

    /// A number from `low` to `high`, both included.
    pub fn between(&mut self, low: u64, high: u64) -> u64 {
        low + self.bits() % (high - low + 1)
    }

    pub fn one_in(&mut self, n: u64) -> bool {
        self.between(1, n) == 1
    }

    fn pick<'a, T>(&mut self, list: &'a [T]) -> Option<&'a T> {
        let last = list.len().checked_sub(1)?;
        list.get(self.between(0, last as u64) as usize)
    }

    /// So many of these numbers, in any order.
    pub fn some_of(&mut self, mut numbers: Vec<u8>, count: usize) -> Vec<u8> {
        for k in 0..count {
            let other = self.between(k as u64, numbers.len() as u64 - 1) as usize;
            numbers.swap(k, other);
        }
        numbers.truncate(count);
        numbers
    }

    /// The numbers 1 to n, in any order.
    pub fn order(&mut self, n: u64) -> Vec<u8> {
        self.some_of((1..=n as u8).collect(), n as usize)
    }
}

impl Config<'_> {
    pub fn any_session(&self, random: &mut Random) -> u64 {
        random.between(1, self.sessions)
    }

    pub fn any_item(&self, random: &mut Random) -> u64 {
        random.between(1, self.items)
    }
}

/// Which route is delivered next. No fairness is asked of the mail, so some of
/// these starve a part of it as long as anything else can move.
#[derive(Clone, Copy, PartialEq, Eq, Debug)]
enum Schedule {
    AnyRoute,
    OldestMessage,
    NewestMessage,
    ProbesFirst,
    ProbesLast,
    /// One session's mail comes last.
    SlowSession(u8),
    /// One item's mail comes last.
    SlowItem(u8),
}

impl Schedule {
    fn draw(random: &mut Random, config: &Config) -> Schedule {
        match random.between(1, 8) {
            1 => Schedule::OldestMessage,
            2 => Schedule::NewestMessage,
            3 => Schedule::ProbesFirst,
            4 => Schedule::ProbesLast,
            5 => Schedule::SlowSession(config.any_session(random) as u8),
            6 => Schedule::SlowItem(config.any_item(random) as u8),
            _ => Schedule::AnyRoute,
        }
    }

    /// A route, given the earliest message of each route in order of sending.
    fn choose(self, random: &mut Random, heads: &[Message]) -> Option<Route> {
        let is_probe = |m: &Message| matches!(m.body, Body::Probe { .. });
        let preferred: Vec<Message> = match self {
            Schedule::AnyRoute => Vec::new(),
            Schedule::OldestMessage => heads.iter().take(1).copied().collect(),
            Schedule::NewestMessage => heads.iter().rev().take(1).copied().collect(),
            Schedule::ProbesFirst => heads.iter().filter(|m| is_probe(m)).copied().collect(),
            Schedule::ProbesLast => heads.iter().filter(|m| !is_probe(m)).copied().collect(),
            Schedule::SlowSession(slow) => heads
                .iter()
                .filter(|m| m.route.session != slow)
                .copied()
                .collect(),
            Schedule::SlowItem(slow) => heads
                .iter()
                .filter(|m| m.route.item != slow)
                .copied()
                .collect(),
        };
        let chosen = random.pick(&preferred).or(random.pick(heads))?;
        Some(chosen.route)
    }
}

/// What one run, or many, came to.
#[derive(Clone, Copy, PartialEq, Eq, Debug, Default)]
pub struct Counts {
    pub runs: u64,
    /// Single ones and those of drains.
    pub steps: u64,
    pub refused: u64,
    /// Steps refused with 9.
    pub full: u64,
    /// Accepted steps with ranks that are not plain.
    pub by_rank: u64,
    /// Accepted steps after a session was reopened.
    pub after_reopening: u64,
    /// Reopenings refused with 15.
    pub in_use: u64,
    /// Reopenings of a session while there was mail.
    pub reopened_beside_mail: u64,
    /// Most reopenings of one session in a run.
    pub most_reopened: u64,
    pub demand3: Demand3,
    /// Most deliveries alone until the mail was empty.
    pub most_deliveries: u64,
    /// Drains, in the order of their endings.
    pub endings: [u64; Ending::ALL.len()],
    /// Runs whose small mail could take no delivery any more.
    pub stuck: u64,
}

impl Counts {
    pub fn add(&mut self, other: Counts) {
        self.runs += other.runs;
        self.steps += other.steps;
        self.refused += other.refused;
        self.full += other.full;
        self.by_rank += other.by_rank;
        self.after_reopening += other.after_reopening;
        self.in_use += other.in_use;
        self.reopened_beside_mail += other.reopened_beside_mail;
        self.most_reopened = self.most_reopened.max(other.most_reopened);
        self.demand3.closed += other.demand3.closed;
        self.demand3.rolled_back += other.demand3.rolled_back;
        self.demand3.declared += other.demand3.declared;
        self.demand3.declared_by_rank += other.demand3.declared_by_rank;
        self.demand3.empty += other.demand3.empty;
        self.demand3.reopened += other.demand3.reopened;
        self.most_deliveries = self.most_deliveries.max(other.most_deliveries);
        for (sum, count) in self.endings.iter_mut().zip(other.endings) {
            *sum += count;
        }
        self.stuck += other.stuck;
    }
}

/// Sizes drawn for S and M.
const SMALLEST: u64 = 2;
const LARGEST: u64 = 8;

/// A capacity that no run of these sizes has filled, and the largest of the
/// small ones.
const WIDE: u64 = 512;
const NARROW: u64 = 16;

/// Deliveries alone that must empty a wide mail, in any order drawn here. It is
/// a generous bound by experience (see the most deliveries in the counts), not a
/// proved one.
pub const DELIVERIES_BOUND: u64 = 5_000;

/// Who answers the calls of a run.
#[derive(Clone, Copy)]
pub struct Answering<'a> {
    pub calls: &'a dyn Calls,
    /// The limit of a drain that is to go on to its end. By the rules it has one;
    /// something wrong on purpose may deliver for ever.
    pub to_the_end: u64,
}

/// The rules do.
pub const BY_RULES: Answering = Answering {
    calls: &RULES,
    to_the_end: u64::MAX,
};

/// One lock manager with its two buffers and the check of its list of calls.
struct Desk<'a> {
    by: Answering<'a>,
    /// Plain; the ranks that were drawn stand in the table.
    config: Config<'static>,
    wide: bool,
    plain: bool,
    /// How often each session was reopened, where the run reopens sessions.
    reopened: Option<Vec<u64>>,
    table: Vec<u8>,
    mail: Vec<u8>,
    random: Random,
    counts: Counts,
}

/// One random run in which no session is reopened. It fails with the first thing
/// that breaks demand 3, or with mail that deliveries alone do not empty.
pub fn run(seed: u64, by: Answering) -> Result<Counts, String> {
    let mut desk = Desk::draw(seed, by)?;
    desk.play()?;
    desk.deliver_all()?;
    Ok(desk.counted())
}

/// One random run in which sessions are reopened, of so many steps or more unless
/// its small mail can take no delivery any more.
pub fn run_reopening(seed: u64, by: Answering, steps: u64) -> Result<Counts, String> {
    let mut desk = Desk::draw(seed, by)?;
    desk.reopened = Some(vec![0; desk.config.sessions as usize]);
    while desk.counts.steps < steps && desk.counts.stuck == 0 {
        desk.play()?;
    }
    if desk.counts.stuck == 0 {
        desk.deliver_all()?;
    }
    Ok(desk.counted())
}

impl<'a> Desk<'a> {
    /// A lock manager after its start, of any size and with any ranks.
    fn draw(seed: u64, by: Answering<'a>) -> Result<Desk<'a>, String> {
        let mut random = Random::new(seed);
        let sessions = random.between(SMALLEST, LARGEST);
        let items = random.between(SMALLEST, LARGEST);
        let wide = !random.one_in(8);
        let capacity = if wide {
            WIDE
        } else {
            random.between(1, NARROW)
        };
        let config = Config::plain(sessions, items, capacity);
        let ranks = if random.one_in(8) {
            config.ranks.to_vec()
        } else {
            random.order(sessions)
        };
        let mut table = vec![0; config.table_length()];
        let mut mail = vec![0; config.mail_length()];
        if start(&config.with_ranks(&ranks), &mut table, &mut mail) != ACCEPTED {
            return Err("start is refused".to_string());
        }
        Ok(Desk {
            by,
            config,
            wide,
            plain: Ranks::is_plain(&ranks),
            reopened: None,
            table,
            mail,
            random,
            counts: Counts {
                runs: 1,
                ..Counts::default()
            },
        })
    }

    /// What the run came to.
    fn counted(mut self) -> Counts {
        if !self.plain {
            self.counts.by_rank = self.counts.steps - self.counts.refused;
        }
        let reopened = self.reopened.unwrap_or_default();
        self.counts.most_reopened = reopened.into_iter().max().unwrap_or(0);
        self.counts
    }

    /// Bursts of mixed calls, now and then all mail delivered.
    fn play(&mut self) -> Result<(), String> {
        let bursts = self.random.between(3, 12);
        let deliver_in_ten = self.random.between(2, 9);
        // A session that is to be reopened has to give up its items first.
        let reopens = self.reopened.is_some();
        let seldom = if reopens { 8 } else { 40 };
        let release_one_in = self.random.between(3, seldom);
        let deliver_all_one_in = self.random.between(1, 6);
        let drain_one_in = self.random.between(40, 200);
        for _ in 0..bursts {
            let schedule = Schedule::draw(&mut self.random, &self.config);
            for _ in 0..self.random.between(5, 60) {
                if self.random.one_in(50) {
                    self.any_step()?;
                } else if self.random.one_in(drain_one_in) {
                    self.drain()?;
                } else if reopens && self.random.one_in(8) {
                    self.reopen()?;
                } else if self.random.between(1, 10) <= deliver_in_ten {
                    self.delivery(schedule)?;
                } else if self.random.one_in(release_one_in) {
                    self.release()?;
                } else {
                    self.request()?;
                }
            }
            if self.random.one_in(deliver_all_one_in) {
                self.deliver_all()?;
            }
        }
        Ok(())
    }

    /// One step, then the check.
    fn step(&mut self, verb: u64, session: u64, item: u64) -> Result<Answer, String> {
        let before = (self.table.clone(), self.mail.clone());
        let (table, mail) = (&mut self.table, &mut self.mail);
        let answer = self.by.calls.step(verb, session, item, table, mail);
        self.counts.steps += 1;
        self.counts.refused += u64::from(answer.refusal != ACCEPTED);
        self.count_reused(u64::from(answer.refusal == ACCEPTED));
        self.counts.full += u64::from(answer.refusal == Refusal::MailFull as u8);
        self.counts.demand3.after_step(
            answer,
            (&before.0, &before.1),
            (&self.table, &self.mail),
        )?;
        Ok(answer)
    }

    /// Counts so many accepted steps, if a session was reopened before them.
    fn count_reused(&mut self, steps: u64) {
        if self.counts.demand3.reopened > 0 {
            self.counts.after_reopening += steps;
        }
    }

    fn records(&self) -> Result<Table, String> {
        let records = Table::decode(&self.table);
        records.ok_or("the table is not well-formed".to_string())
    }

    /// The earliest message of each route, in order of sending.
    fn heads(&self) -> Result<Vec<Message>, String> {
        let mailbox = Mailbox::decode(
            &self.mail,
            self.config.sessions as usize,
            self.config.items as usize,
        )
        .ok_or("the mail is not well-formed")?;
        let mut heads: Vec<Message> = Vec::new();
        for message in mailbox.messages {
            if heads.iter().all(|head| head.route != message.route) {
                heads.push(message);
            }
        }
        Ok(heads)
    }

    /// Any verb, session and item, most of it refused.
    fn any_step(&mut self) -> Result<(), String> {
        let verb = self.random.between(0, 5);
        let session = self.random.between(0, self.config.sessions + 1);
        let item = self.random.between(0, self.config.items + 1);
        self.step(verb, session, item).map(|_| ())
    }

    /// A request by a growing session for an item that it does not hold.
    fn request(&mut self) -> Result<(), String> {
        self.own_step(Verb::Request, &[Stage::Growing], false)
    }

    /// A release by a growing or shrinking session of an item that it holds.
    fn release(&mut self) -> Result<(), String> {
        self.own_step(Verb::Release, &[Stage::Growing, Stage::Shrinking], true)
    }

    fn own_step(&mut self, verb: Verb, stages: &[Stage], held: bool) -> Result<(), String> {
        let records = self.records()?;
        let mut choices = Vec::new();
        for session in 1..=self.config.sessions {
            let record = records.session(session as u8);
            for item in 1..=self.config.items {
                if stages.contains(&record.stage) && record.holds(item as u8) == held {
                    choices.push((session, item));
                }
            }
        }
        if let Some(&(session, item)) = self.random.pick(&choices) {
            self.step(verb as u64, session, item)?;
        }
        Ok(())
    }

    fn deliver(&mut self, route: Route) -> Result<Answer, String> {
        let verb = Verb::delivers(route.direction);
        self.step(verb as u64, route.session.into(), route.item.into())
    }

    /// The delivery that the schedule chooses, if there is mail.
    fn delivery(&mut self, schedule: Schedule) -> Result<(), String> {
        let heads = self.heads()?;
        if let Some(route) = schedule.choose(&mut self.random, &heads) {
            self.deliver(route)?;
        }
        Ok(())
    }

    /// A drain with any limit, then the check.
    fn drain(&mut self) -> Result<(), String> {
        let limit = match self.random.between(1, 6) {
            1 => 0,
            2 => 1,
            3 | 4 => self.random.between(2, 20),
            _ => self.by.to_the_end,
        };
        let before = (self.table.clone(), self.mail.clone());
        let (table, mail) = (&mut self.table, &mut self.mail);
        let drained = self.by.calls.drain(limit, table, mail);
        self.counts.demand3.after_drain(
            self.by.calls,
            limit,
            drained,
            (&before.0, &before.1),
            (&self.table, &self.mail),
        )?;
        self.counts.steps += drained.made;
        self.count_reused(drained.made);
        self.counts.endings[usize::from(drained.ending) - 1] += 1;
        if drained.made == DELIVERIES_BOUND {
            return Err(format!(
                "mail not empty after {DELIVERIES_BOUND} deliveries, a drain"
            ));
        }
        if self.wide && drained.ending == Ending::Full as u8 {
            return Err("a wide mail filled up".to_string());
        }
        Ok(())
    }

    /// A reopening, mostly of a session whose work is over, if there is one, then
    /// the check. By the rules it is refused to such a session only where a message
    /// names it.
    fn reopen(&mut self) -> Result<(), String> {
        let records = self.records()?;
        let over = |&session: &u64| records.session(session as u8).may_reopen();
        let choices: Vec<u64> = (1..=self.config.sessions).filter(over).collect();
        let session = match self.random.pick(&choices) {
            _ if self.random.one_in(10) => self.random.between(0, self.config.sessions + 1),
            Some(&session) => session,
            None => return Ok(()),
        };
        let before = self.table.clone();
        let refusal = self.by.calls.reopen(session, &mut self.table, &self.mail);
        self.counts.demand3.after_reopen(
            refusal,
            (&before, &self.mail),
            (&self.table, &self.mail),
        )?;
        let in_use = refusal == Refusal::InUse as u8;
        self.counts.in_use += u64::from(in_use);
        if in_use && choices.contains(&session) {
            self.check_named(session as u8)?;
        }
        if let (ACCEPTED, Some(reopened)) = (refusal, &mut self.reopened) {
            reopened[session as usize - 1] += 1;
            self.counts.reopened_beside_mail += u64::from(count(&self.mail) != 0);
        }
        Ok(())
    }

    /// A message names the session.
    fn check_named(&self, session: u8) -> Result<(), String> {
        let Config {
            sessions, items, ..
        } = self.config;
        let mailbox = Mailbox::decode(&self.mail, sessions as usize, items as usize)
            .ok_or("the mail is not well-formed")?;
        if !mailbox
            .messages
            .iter()
            .all(|m| by_message(*m, session).is_empty())
        {
            return Ok(());
        }
        Err(format!(
            "session {session}, which no message names, is in use"
        ))
    }

    /// Deliveries alone, in the order of some schedule, until the mail is empty.
    fn deliver_all(&mut self) -> Result<(), String> {
        let schedule = Schedule::draw(&mut self.random, &self.config);
        let mut deliveries = 0;
        while count(&self.mail) != 0 {
            if deliveries == DELIVERIES_BOUND {
                return Err(format!(
                    "mail not empty after {DELIVERIES_BOUND} deliveries, {schedule:?}"
                ));
            }
            let heads = self.heads()?;
            let chosen = schedule.choose(&mut self.random, &heads);
            let route = chosen.ok_or("mail without a route")?;
            if self.deliver(route)?.refusal != ACCEPTED && !self.deliver_some(&heads)? {
                if self.wide {
                    return Err("a wide mail filled up".to_string());
                }
                self.counts.stuck += 1;
                return Ok(());
            }
            deliveries += 1;
        }
        self.counts.most_deliveries = self.counts.most_deliveries.max(deliveries);
        Ok(())
    }

    /// The first delivery that a full mail still takes; false if there is none.
    fn deliver_some(&mut self, heads: &[Message]) -> Result<bool, String> {
        for head in heads {
            if self.deliver(head.route)?.refusal == ACCEPTED {
                return Ok(true);
            }
        }
        Ok(false)
    }
}
