//! The replay program against the model's replay, byte for byte:
//! `replays PROGRAM`. Prints what the inputs reached, and fails if the two
//! differ or if something was not reached. `replays PROGRAM bench` times the
//! longest input instead.

use compare::program::Program;
use model::layout::{MAX_CAPACITY, MAX_ITEMS, MAX_SESSIONS};
use model::mailbox::{count, Direction, Mailbox};
use model::replay::{CAPACITY, MAX_STEPS};
use model::scenario::Random;
use model::session::Stage;
use model::table::Table;
use model::{Config, Refusal, Verb, ACCEPTED};
use std::process::ExitCode;

const RUNS: u64 = 520;

/// Verbs as bytes of the input.
const REQUEST: u8 = Verb::Request as u8;
const RELEASE: u8 = Verb::Release as u8;
const TO_ITEM: u8 = Verb::DeliverToItem as u8;
const TO_SESSION: u8 = Verb::DeliverToSession as u8;

/// The refusals that a replay can meet.
const CAUSES: [Refusal; 6] = [
    Refusal::BadVerb,
    Refusal::BadNumber,
    Refusal::WrongStage,
    Refusal::WrongItem,
    Refusal::NoMessage,
    Refusal::MailFull,
];

/// A replay under construction: the model runs along, so that the next step can
/// be chosen by what stands in the mail.
struct Recorder {
    sessions: usize,
    items: usize,
    table: Vec<u8>,
    mail: Vec<u8>,
    steps: Vec<[u8; 3]>,
    refused: [u64; 256],
    closed: u64,
    rolled_back: u64,
    most_left: usize,
}

impl Recorder {
    fn new(sessions: usize, items: usize) -> Recorder {
        let config = Config::plain(sessions as u64, items as u64, CAPACITY as u64);
        let mut table = vec![0; config.table_length()];
        let mut mail = vec![0; config.mail_length()];
        let refusal = model::start(&config, &mut table, &mut mail);
        assert_eq!(refusal, ACCEPTED);
        Recorder {
            sessions,
            items,
            table,
            mail,
            steps: Vec::new(),
            refused: [0; 256],
            closed: 0,
            rolled_back: 0,
            most_left: 0,
        }
    }

    fn full(&self) -> bool {
        self.steps.len() == MAX_STEPS
    }

    fn step(&mut self, verb: u8, session: u8, item: u8) -> u8 {
        if self.full() {
            return u8::MAX;
        }
        let before = self.stage(session);
        let (v, t, x) = (verb.into(), session.into(), item.into());
        let answer = model::step(v, t, x, &mut self.table, &mut self.mail);
        self.steps.push([verb, session, item]);
        self.refused[usize::from(answer.refusal)] += 1;
        self.closed += u64::from(answer.closed);
        let rolled =
            before != Some(Stage::RolledBack) && self.stage(session) == Some(Stage::RolledBack);
        self.rolled_back += u64::from(rolled);
        self.most_left = self.most_left.max(count(&self.mail));
        answer.refusal
    }

    fn stage(&self, session: u8) -> Option<Stage> {
        let known = (1..=self.sessions).contains(&usize::from(session));
        let table = known.then(|| Table::decode(&self.table))??;
        Some(table.session(session).stage)
    }

    /// The verb, session and item that deliver a message of the mail.
    fn delivery(&self, random: &mut Random) -> Option<[u8; 3]> {
        let mailbox = Mailbox::decode(&self.mail, self.sessions, self.items)?;
        let last = mailbox.messages.len().checked_sub(1)?;
        let route = mailbox.messages[random.between(0, last as u64) as usize].route;
        let verb = match route.direction {
            Direction::ToItem => TO_ITEM,
            Direction::ToSession => TO_SESSION,
        };
        Some([verb, route.session, route.item])
    }

    /// Mostly deliveries and calls that are accepted; now and then any bytes.
    fn wander(&mut self, random: &mut Random, steps: usize) {
        for _ in 0..steps {
            let session = random.between(1, self.sessions as u64) as u8;
            let item = random.between(1, self.items as u64) as u8;
            let any = |random: &mut Random| random.bits() as u8;
            let [verb, session, item] = match random.between(1, 20) {
                1 => [any(random) % 6, any(random), any(random)],
                2 => {
                    let verb = random.between(REQUEST.into(), TO_SESSION.into());
                    [verb as u8, session, item]
                }
                3 => [RELEASE, session, item],
                4..=8 => [REQUEST, session, item],
                _ => self.delivery(random).unwrap_or([REQUEST, session, item]),
            };
            self.step(verb, session, item);
        }
    }

    /// Fills the mail. Every session asks for item 1; the most junior holds it
    /// and stores a probe of each other, which it sends with every request for
    /// a further item. Then it releases item 1, and so does session 1, which is
    /// next, with a resend to all that wait each time; then the others, of which
    /// nothing is delivered.
    fn crowd(&mut self) {
        let (holder, items) = (self.sessions as u8, self.items as u8);
        for session in (1..=holder).rev() {
            self.step(REQUEST, session, 1);
            self.step(TO_ITEM, session, 1);
        }
        while self.step(TO_SESSION, holder, 1) == ACCEPTED {}
        for item in 2..=items {
            self.step(REQUEST, holder, item);
            self.step(TO_ITEM, holder, item);
            self.step(TO_SESSION, holder, item);
        }
        self.step(RELEASE, holder, 1);
        self.step(TO_ITEM, holder, 1);
        self.step(TO_SESSION, 1, 1);
        self.step(RELEASE, 1, 1);
        self.step(TO_ITEM, 1, 1);
        for item in 2..=items {
            self.step(RELEASE, holder, item);
        }
    }

    fn input(&self) -> Vec<u8> {
        let n = self.steps.len() as u16;
        let mut bytes = vec![self.sessions as u8, self.items as u8];
        bytes.extend(n.to_le_bytes());
        bytes.extend(self.steps.iter().map(|step| step[0]));
        bytes.extend(self.steps.iter().flat_map(|step| [step[1], step[2]]));
        bytes
    }
}

fn main() -> ExitCode {
    let Some(program) = Program::from_arguments() else {
        eprintln!("usage: replays PROGRAM [bench]");
        return ExitCode::from(2);
    };
    let mut random = Random::new(2026);
    let mut inputs: Vec<Vec<u8>> = Vec::new();
    let mut refused = [0; 256];
    let (mut closed, mut rolled_back, mut most_left, mut longest) = (0, 0, 0, 0);
    for run in 0..RUNS {
        let size = if run % 40 == 0 { MAX_SESSIONS } else { 8 } as u64;
        let (sessions, items) = match run {
            0 | 1 => (MAX_SESSIONS, MAX_ITEMS),
            2 => (1, 1),
            _ => (
                random.between(1, size) as usize,
                random.between(1, size) as usize,
            ),
        };
        let mut recorder = Recorder::new(sessions, items);
        if run == 1 {
            recorder.crowd();
        }
        let steps = match run {
            0 | 1 => MAX_STEPS,
            2 => 0,
            _ => random.between(0, 400) as usize,
        };
        recorder.wander(&mut random, steps);
        for (sum, more) in refused.iter_mut().zip(recorder.refused) {
            *sum += more;
        }
        closed += recorder.closed;
        rolled_back += recorder.rolled_back;
        most_left = most_left.max(recorder.most_left);
        longest = longest.max(recorder.steps.len());
        inputs.push(recorder.input());
    }
    let runs = inputs.len();
    // Too short, too long, and bounds exceeded.
    let whole = inputs[3].clone();
    inputs.extend((0..whole.len().min(12)).map(|length| whole[..length].to_vec()));
    for more in [1, 3, 1 << 20] {
        inputs.push([whole.clone(), vec![0; more]].concat());
    }
    inputs.push([inputs[0].clone(), vec![0]].concat());
    let (sessions, items) = (MAX_SESSIONS as u8 + 1, MAX_ITEMS as u8 + 1);
    for (place, byte) in [(0, 0), (0, sessions), (1, 0), (1, items), (3, 16), (3, 255)] {
        let mut changed = inputs[2].clone();
        changed[place] = byte;
        inputs.push(changed);
    }
    let mut over = vec![1, 1];
    over.extend((MAX_STEPS as u16 + 1).to_le_bytes());
    over.resize(over.len() + 3 * (MAX_STEPS + 1), 0);
    inputs.push(over);

    if program.bench {
        let name =
            format!("replay of {MAX_STEPS} steps, {MAX_SESSIONS} sessions, {MAX_ITEMS} items");
        program.time(&name, &inputs[0], model::replay);
        return ExitCode::SUCCESS;
    }

    let expected: Vec<Vec<u8>> = inputs.iter().map(|input| model::replay(input)).collect();
    let bad = expected.iter().filter(|text| *text == b"bad\n").count();
    let slowest = match program.compare(&inputs, &expected) {
        Ok(slowest) => slowest,
        Err(reason) => {
            println!("FAILED: {reason}");
            return ExitCode::FAILURE;
        }
    };
    println!(
        "{} inputs, {runs} of them runs from the start: every byte agrees",
        inputs.len()
    );
    println!(
        "longest run {longest} steps, most entries in the mail {most_left}, {bad} times `bad`"
    );
    println!("cycles closed {closed}, sessions rolled back {rolled_back}");
    for cause in CAUSES {
        println!("refused with {cause:?}: {}", refused[cause as usize]);
    }
    println!("slowest input {} ms", slowest.as_millis());
    let causes = CAUSES.iter().all(|&cause| refused[cause as usize] > 0);
    let reached = closed > 100
        && rolled_back > 50
        && most_left == MAX_CAPACITY
        && longest == MAX_STEPS
        && bad > 10;
    if causes && reached {
        ExitCode::SUCCESS
    } else {
        println!("FAILED: not everything was reached");
        ExitCode::FAILURE
    }
}
