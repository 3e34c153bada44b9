//! Times of one call: the library beside the model, beside one pass over the
//! bytes, and beside the same rules written for speed; and of a drain beside the
//! same single steps. `bench BEFORE LIBRARY` measures two shared libraries, an
//! earlier one beside this one, both loaded in the same way. All are measured in
//! turn in one run, so that the ratios hold where the times do not.

use compare::comparison::Buffers;
use compare::fast::Fast;
use compare::forge::{clear_route, full_mail, reopenable, set_item, well_formed, Routes};
use compare::library::Library;
use compare::numbers::{
    kind, DELIVER_TO_ITEM, DELIVER_TO_SESSION, GROWING, RELEASE, REQUEST, ROLLED_BACK, SHRINKING,
    TO_ITEM, TO_SESSION, WAITING,
};
use model::layout::{
    route_at, AWAITED, HELD, HOLDER, JUNIORS, MAX_TEXT, QUEUE, QUEUE_LENGTH, ROUTE_ITEM, STAGE,
};
use model::scenario::Random;
use model::{Calls, Config, Drained, Ranks, ACCEPTED, RULES};
use std::env;
use std::hint::black_box;
use std::process::ExitCode;
use std::time::Instant;

/// Turns of each measurement; the median counts.
const TURNS: usize = 301;
const DRAIN_TURNS: usize = 31;

/// Buffers that are measured together, at most this many bytes.
const TOGETHER: usize = 24 * 1024;

const LARGEST: Config = Config::LARGEST;

/// Targets for library / floor, library / model, library / fast.
const FLOOR_FEW_MESSAGES: f64 = 3.0;
const FLOOR_SMALL: f64 = 6.0;
const FLOOR_FULL: f64 = 25.0;
const MODEL: f64 = 1.0;
const FAST: f64 = 1.5;

/// Target for the library's drain / the same single steps through the library.
const STEPS: f64 = 0.2;

#[derive(Clone, Copy)]
enum Call {
    Step(u64, u64, u64),
    Report(u64),
    /// The text is written over the bytes of the mail, which the call does not get.
    CycleText(u64),
    Reopen(u64),
}

struct Row {
    name: &'static str,
    call: Call,
    buffers: Buffers,
    floor_target: Option<f64>,
}

/// How much is in the table.
#[derive(Clone, Copy, PartialEq, Eq)]
enum Table {
    /// Each session holds an item; half of them wait, one in a queue.
    Light,
    /// Queues as long as can be, and every probe stored.
    Full,
    /// Each session waits for the next, in one cycle.
    Cycle,
}

/// S = M = n, with plain ranks. Session k holds item k. Session 1 is growing;
/// session n waits for item 1, its request is still in the mail.
fn fill_table(buffers: &mut Buffers, n: usize, contents: Table) {
    buffers.set_ranks(Ranks::plain_list(n));
    for session in 1..=n {
        let record = buffers.session_mut(session);
        let waits_for = match contents {
            Table::Light if session == n => 1,
            Table::Light if session > n / 2 => session - n / 2,
            Table::Light => 0,
            Table::Full if session == 1 => 0,
            Table::Full | Table::Cycle => session % n + 1,
        };
        record.fill(0);
        record[STAGE] = if waits_for == 0 { GROWING } else { WAITING };
        record[AWAITED] = waits_for as u8;
        record[HELD].copy_from_slice(&(1u64 << (session - 1)).to_le_bytes());
        let juniors = &mut record[JUNIORS];
        match contents {
            Table::Full if session != 1 => juniors[..n].fill(n as u8 - 1),
            Table::Light if session > n / 2 => juniors[0] = (n - 1) as u8,
            _ => {}
        }
        if session == n {
            juniors[0] = 0;
        }
    }
    for item in 1..=n {
        let waiting: Vec<usize> = match contents {
            Table::Light => [item + n / 2].into_iter().filter(|&w| w < n).collect(),
            Table::Full => (1..n).filter(|&w| w != item).collect(),
            Table::Cycle => vec![(item + n - 2) % n + 1],
        };
        let record = buffers.item_mut(item);
        record.fill(0);
        record[HOLDER] = item as u8;
        record[QUEUE_LENGTH] = waiting.len() as u8;
        for (place, waiting) in record[QUEUE].iter_mut().zip(waiting) {
            *place = waiting as u8;
        }
    }
}

/// Buffers with so many messages. In the middle of the mail stand the request
/// of session n to item 1 and a probe (1, n) from item 2 to session n, alone on
/// their routes.
fn buffers(config: &Config, count: u64, contents: Table) -> Buffers {
    let n = config.sessions as u8;
    let mut buffers = well_formed(&mut Random::new(7), config, count);
    fill_table(&mut buffers, n.into(), contents);
    let (request, probe) = ([TO_ITEM, n, 1], [TO_SESSION, n, 2]);
    for place in 0..count as usize {
        let route = &mut buffers.mail[route_at(place)];
        if route == request || route == probe {
            route[ROUTE_ITEM] = 3;
        }
    }
    if count >= 2 {
        let place = count as usize / 2 - 1;
        buffers.set_message(place, request, [kind::REQUEST, 0, 0]);
        buffers.set_message(place + 1, probe, [kind::PROBE, 1, n]);
    }
    buffers
}

/// The order of a queue.
#[derive(Clone, Copy)]
enum Order {
    MostSeniorInFront,
    MostSeniorAtTheEnd,
    Mixed,
}

/// The delivery of a release: it stands at this place of the mail, alone on its
/// route. Session S gives up item 1, for which all others wait in this order.
fn release(mut buffers: Buffers, config: &Config, place: usize, order: Order) -> Row {
    let holder = config.sessions as u8;
    buffers.session_mut(holder.into()).fill(0);
    buffers.session_mut(holder.into())[STAGE] = SHRINKING;
    let others = usize::from(holder) - 1;
    let item = buffers.item_mut(1);
    set_item(&mut Random::new(7), config, item, holder, others);
    let queue = &mut item[QUEUE][..others];
    let name = match order {
        Order::MostSeniorInFront => {
            queue.sort_unstable();
            "deliver release, senior in front"
        }
        Order::MostSeniorAtTheEnd => {
            queue.sort_unstable_by(|a, b| b.cmp(a));
            "deliver release, senior at end"
        }
        Order::Mixed => "deliver release",
    };
    buffers.set_message(place, [TO_ITEM, holder, 1], [kind::RELEASE, 0, 0]);
    Row {
        name,
        call: Call::Step(DELIVER_TO_ITEM, holder.into(), 1),
        buffers,
        floor_target: None,
    }
}

/// Small buffers with the longest queue: one item, for which all others wait, and
/// its release as the only message. The 125 messages of a release that sends
/// probes would fit too.
const LONG_QUEUE: Config = Config::plain(LARGEST.sessions, 1, 128);

fn long_queue_rows() -> Vec<Row> {
    let mut buffers = Buffers::filled(&LONG_QUEUE, 0);
    buffers.set_config(&LONG_QUEUE);
    for session in 1..=LONG_QUEUE.sessions as usize {
        let record = buffers.session_mut(session);
        record[STAGE] = WAITING;
        record[AWAITED] = 1;
    }
    buffers.set_count(1);
    let row = |order| release(buffers.clone(), &LONG_QUEUE, 0, order);
    vec![
        row(Order::MostSeniorInFront),
        row(Order::MostSeniorAtTheEnd),
        row(Order::Mixed),
        any_ranks(row(Order::Mixed), "deliver release, any ranks"),
    ]
}

/// The same row with ranks drawn at random.
fn any_ranks(mut row: Row, name: &'static str) -> Row {
    let sessions = row.buffers.ranks().len() as u64;
    row.buffers.set_ranks(&Random::new(7).order(sessions));
    Row { name, ..row }
}

/// Deliveries from the largest mail, full, of which half goes in one direction.
/// The message is alone on its route, and its session drops it. Its item is that
/// of the message that stood in the middle.
fn search_rows() -> Vec<Row> {
    let session = LARGEST.sessions;
    let last = LARGEST.capacity as usize - 1;
    let row = |name, routes, place: Option<usize>| {
        let mut random = Random::new(7);
        let mut buffers = full_mail(&mut random, &LARGEST, routes);
        fill_table(&mut buffers, LARGEST.sessions as usize, Table::Light);
        let item = buffers.route(last / 2)[ROUTE_ITEM];
        let route = [TO_SESSION, session as u8, item];
        if let Some(place) = place {
            buffers.set_message(place, route, [kind::WITHDRAWN, 0, 0]);
        }
        clear_route(&mut random, &LARGEST, &mut buffers, route, place);
        Row {
            name,
            call: Call::Step(DELIVER_TO_SESSION, session, item.into()),
            buffers,
            floor_target: None,
        }
    };
    let mut rows = vec![
        row("search, at the start", Routes::Any, Some(0)),
        row("search, in the middle", Routes::Any, Some(last / 2)),
        row("search, at the end", Routes::Any, Some(last)),
        row("search, absent", Routes::Any, None),
        row("search, absent, one item", Routes::OneItem, None),
        row("search, absent, other direction", Routes::OneItem, None),
    ];
    // The worst case: all go from the session to the item, and none back.
    let worst = &mut rows.last_mut().unwrap().buffers;
    let item = worst.route(last / 2)[ROUTE_ITEM];
    for place in 0..=last {
        worst.set_message(place, [TO_ITEM, session as u8, item], [kind::REQUEST, 0, 0]);
    }
    rows
}

/// Texts of cycles, and none for a session that waits for none. Where the table is
/// full, sessions 1 and 2 wait for each other, and session S for none.
fn text_rows(config: &Config) -> Vec<Row> {
    let row = |name, session, contents| Row {
        name,
        call: Call::CycleText(session),
        buffers: Buffers {
            mail: vec![0; MAX_TEXT],
            ..buffers(config, 0, contents)
        },
        floor_target: None,
    };
    vec![
        row("cycle text, cycle of 2", 1, Table::Full),
        row("cycle text, cycle of S", 1, Table::Cycle),
        any_ranks(
            row("", 1, Table::Cycle),
            "cycle text, cycle of S, any ranks",
        ),
        row("cycle text, no cycle", config.sessions, Table::Full),
    ]
}

/// Two sessions and two items.
const SMALL: Config = Config::plain(2, 2, 16);

/// Reopenings of the last session in buffers drawn at random, which do not name it.
/// With a full mail also one that is refused: the last message is a probe of which
/// the session is the junior.
fn reopen_rows(config: &Config, count: u64) -> Vec<Row> {
    let session = config.sessions as u8;
    let row = |name, stage| Row {
        name,
        call: Call::Reopen(session.into()),
        buffers: reopenable(&mut Random::new(7), config, count, session, stage),
        floor_target: None,
    };
    let mut rows = vec![
        row("reopen, shrinking", SHRINKING),
        row("reopen, rolled back", ROLLED_BACK),
    ];
    if count == config.capacity {
        let mut late = row("reopen, named by the last message", SHRINKING);
        let last = count as usize - 1;
        let probe = [kind::PROBE, 1, session];
        late.buffers.set_message(last, [TO_ITEM, 1, 1], probe);
        rows.push(late);
    }
    rows
}

fn rows(config: &Config, count: u64) -> Vec<Row> {
    let n = config.sessions;
    let full = count == config.capacity;
    let contents = if full { Table::Full } else { Table::Light };
    let filled = buffers(config, count, contents);
    let floor_target = if full {
        Some(FLOOR_FULL)
    } else if n == 8 {
        Some(FLOOR_SMALL)
    } else if n == LARGEST.sessions && count <= 64 {
        Some(FLOOR_FEW_MESSAGES)
    } else {
        None
    };
    // The targets beside the floor are for steps: a report gets the table alone.
    let row = |name, call| Row {
        name,
        call,
        buffers: filled.clone(),
        floor_target: floor_target.filter(|_| matches!(call, Call::Step(..))),
    };
    let mut rows = vec![
        row("request", Call::Step(REQUEST, 1, 3)),
        row("release", Call::Step(RELEASE, 1, 1)),
        row("deliver to item", Call::Step(DELIVER_TO_ITEM, n, 1)),
        row("deliver to session", Call::Step(DELIVER_TO_SESSION, n, 2)),
        row("report", Call::Report(1)),
        Row {
            name: "report, cycle of S",
            call: Call::Report(1),
            buffers: Buffers {
                mail: Vec::new(),
                ..buffers(config, 0, Table::Cycle)
            },
            floor_target: None,
        },
    ];
    if count >= 2 && !full {
        let place = count as usize / 2 - 1;
        rows.push(release(filled, config, place, Order::Mixed));
    }
    rows
}

fn refusal(subject: &dyn Calls, call: Call, buffers: &mut Buffers) -> u8 {
    match call {
        Call::Step(verb, session, item) => {
            let answer = subject.step(
                black_box(verb),
                black_box(session),
                black_box(item),
                &mut buffers.table,
                &mut buffers.mail,
            );
            black_box(answer).refusal
        }
        Call::Report(session) => {
            let cycle = subject.report(black_box(session), &buffers.table);
            black_box(cycle).refusal
        }
        Call::CycleText(session) => {
            let Buffers { table, mail: text } = buffers;
            let written = subject.cycle_text(black_box(session), table, text);
            black_box(written).refusal
        }
        Call::Reopen(session) => {
            let Buffers { table, mail } = buffers;
            black_box(subject.reopen(black_box(session), table, mail))
        }
    }
}

/// The sum of bytes, in 64 lanes and out of line: a loop left to the compiler
/// took half as long again in some builds, by its place alone.
#[inline(never)]
fn sum(bytes: &[u8]) -> u8 {
    let mut lanes = [0u8; 64];
    let mut blocks = bytes.chunks_exact(lanes.len());
    for block in &mut blocks {
        for (lane, &byte) in lanes.iter_mut().zip(block) {
            *lane = lane.wrapping_add(byte);
        }
    }
    let rest = blocks.remainder().iter();
    rest.chain(&lanes)
        .fold(0, |sum, &byte| sum.wrapping_add(byte))
}

/// One pass over the bytes that the call gets.
fn floor(call: Call, buffers: &Buffers) -> u8 {
    let table = sum(black_box(&buffers.table));
    match call {
        Call::Step(..) | Call::Reopen(_) => table ^ sum(black_box(&buffers.mail)),
        Call::Report(_) | Call::CycleText(_) => table,
    }
}

/// What is done with the buffers while it is timed.
type Subject<'a> = Box<dyn Fn(&mut Buffers) + 'a>;

/// The library that is measured and, if one is given, an earlier one beside it.
struct Libraries {
    library: Library,
    before: Option<Library>,
}

/// Nanoseconds of one call by library, model, floor, fast and an earlier library,
/// if it has the call.
fn measure_call(row: &Row, libraries: &Libraries) -> Vec<f64> {
    fn by<'a>(subject: &'a dyn Calls, call: Call) -> Subject<'a> {
        Box::new(move |copy| {
            refusal(subject, call, copy);
        })
    }
    let call = row.call;
    let mut subjects = vec![
        by(&libraries.library, call),
        by(&RULES, call),
        Box::new(|copy| {
            black_box(floor(call, copy));
        }),
        by(&Fast, call),
    ];
    let has_call = |before: &&Library| match call {
        Call::Reopen(_) => before.has_reopen(),
        Call::Step(..) | Call::Report(_) | Call::CycleText(_) => true,
    };
    let before = libraries.before.as_ref().filter(has_call);
    subjects.extend(before.map(|before| by(before, call)));
    measure(&row.buffers, TURNS, &subjects)
}

/// Nanoseconds of what each subject does with these buffers, which are restored
/// before each turn. That is not timed.
fn measure(buffers: &Buffers, turns: usize, subjects: &[Subject]) -> Vec<f64> {
    let bytes = buffers.table.len() + buffers.mail.len();
    let together = (TOGETHER / bytes).max(1);
    let mut copies = vec![buffers.clone(); together];
    // One place more, for reading the clock.
    let mut times = vec![Vec::new(); subjects.len() + 1];
    for turn in 0..turns {
        // They take turns at being the first.
        for place in (0..subjects.len()).map(|k| (turn + k) % subjects.len()) {
            for copy in &mut copies {
                copy.table.copy_from_slice(&buffers.table);
                copy.mail.copy_from_slice(&buffers.mail);
            }
            let begin = Instant::now();
            for copy in &mut copies {
                subjects[place](copy);
            }
            times[place].push(begin.elapsed().as_nanos() as u64);
        }
        let begin = Instant::now();
        times[subjects.len()].push(begin.elapsed().as_nanos() as u64);
    }
    let medians: Vec<f64> = times
        .into_iter()
        .map(|mut turns| {
            turns.sort_unstable();
            turns[turns.len() / 2] as f64
        })
        .collect();
    // Without the cost of reading the clock.
    let (clock, measured) = medians.split_last().unwrap();
    let of = |median: &f64| (median - clock).max(1.0) / together as f64;
    measured.iter().map(of).collect()
}

/// A drain with the largest buffers.
struct DrainRow {
    name: &'static str,
    limit: u64,
    buffers: Buffers,
}

/// A lock manager from its start: the sessions of each list ask for an item, and
/// before the next list all mail is delivered.
fn reached(lists: &[&[(u64, u64)]]) -> Buffers {
    let mut buffers = Buffers::filled(&LARGEST, 0);
    let Buffers { table, mail } = &mut buffers;
    let refusal = RULES.start(&LARGEST, table, mail);
    assert_eq!(refusal, ACCEPTED);
    for requests in lists {
        RULES.drain(u64::MAX, table, mail);
        for &(session, item) in *requests {
            let answer = RULES.step(REQUEST, session, item, table, mail);
            assert_eq!(answer.refusal, ACCEPTED);
        }
    }
    buffers
}

fn drain_rows() -> Vec<DrainRow> {
    let n = LARGEST.sessions;
    // Each session takes the item of its number, then asks for the next one. The
    // delivery of these requests closes a cycle of all sessions, and the probes
    // of each go round it: 8,198 deliveries in all.
    let own: Vec<_> = (1..=n).map(|session| (session, session)).collect();
    let next: Vec<_> = (1..=n).map(|session| (session, session % n + 1)).collect();
    let cycle = reached(&[&own, &next]);
    // Half of the sessions ask for free items: a request and a grant for each.
    let free = reached(&[&own[..own.len() / 2]]);
    // Forged, since hardly any list of steps leaves so many messages: half of the
    // sessions wait, and the messages are of every kind. In a drain of 1,000 the
    // places behind the last message run out three times.
    let many = buffers(&LARGEST, 4000, Table::Light);
    let row = |name, limit, buffers: &Buffers| DrainRow {
        name,
        limit,
        buffers: buffers.clone(),
    };
    vec![
        row("requests and grants to the end", u64::MAX, &free),
        row("64 of a cycle of 64 sessions", 64, &cycle),
        row("1,000 of a cycle of 64 sessions", 1000, &cycle),
        row("64 of a nearly full mail", 64, &many),
        row("1,000 of a nearly full mail", 1000, &many),
    ]
}

fn drain(subject: &dyn Calls, limit: u64, buffers: &mut Buffers) -> Drained {
    let Buffers { table, mail } = buffers;
    black_box(subject.drain(black_box(limit), table, mail))
}

/// The deliveries of a drain, as a caller makes them one by one.
fn single_steps(library: &Library, made: u64, buffers: &mut Buffers) {
    for _ in 0..made {
        let (verb, session, item) = buffers.delivery(0);
        refusal(library, Call::Step(verb, session, item), buffers);
    }
}

fn print_drains(libraries: &Libraries, missed: &mut usize) {
    let Libraries { library, before } = libraries;
    fn by<'a>(subject: &'a dyn Calls, limit: u64) -> Subject<'a> {
        Box::new(move |copy| {
            drain(subject, limit, copy);
        })
    }
    println!("\nNanoseconds of one delivery of a drain, median of {DRAIN_TURNS} turns.");
    println!("S = M = 64, C = 4096. ending: 1 empty mail, 3 limit.");
    println!("steps: the same deliveries by single steps of the library.");
    println!(
        "{:>6}  {:34}{:>6}{:>8}{:>10}{:>10}{:>10}{:>10}  {:>7}{:13}{:>7}{:13}{:>7}{}",
        "mail",
        "drain",
        "made",
        "ending",
        "library",
        "steps",
        "model",
        "fast",
        "/steps",
        "",
        "/model",
        "",
        "/fast",
        earlier_header(libraries),
    );
    for row in drain_rows() {
        let limit = row.limit;
        let Drained { made, ending, .. } = drain(library, limit, &mut row.buffers.clone());
        let mut subjects = vec![
            by(library, limit),
            Box::new(|copy| single_steps(library, made, copy)),
            by(&RULES, limit),
            by(&Fast, limit),
        ];
        subjects.extend(before.as_ref().map(|before| by(before, limit)));
        let mut times = measure(&row.buffers, DRAIN_TURNS, &subjects);
        times.iter_mut().for_each(|time| *time /= made as f64);
        let &[library, steps, model, fast, ref before @ ..] = &times[..] else {
            unreachable!("each subject has its time");
        };
        println!(
            "{:>6}  {:34}{made:>6}{ending:>8}{library:>10.1}{steps:>10.1}{model:>10.1}{fast:>10.1}  {} {} {}{}",
            row.buffers.count(),
            row.name,
            beside(library / steps, Some(STEPS), missed),
            beside(library / model, Some(MODEL), missed),
            beside(library / fast, Some(FAST), missed),
            beside_earlier(library, before),
        );
    }
}

/// The columns of an earlier library, where one is measured: its time, and the
/// library's beside it.
fn earlier_header(libraries: &Libraries) -> String {
    libraries.before.as_ref().map_or(String::new(), |_| {
        format!("{:12}{:>10}{:>9}", "", "before", "/before")
    })
}

fn beside_earlier(library: f64, before: &[f64]) -> String {
    before.first().map_or(String::new(), |before| {
        format!("{before:>10.1}{:>9.2}", library / before)
    })
}

/// A ratio with its target, and whether it is met.
fn beside(ratio: f64, target: Option<f64>, missed: &mut usize) -> String {
    match target {
        None => format!("{ratio:7.2}  {:10}", ""),
        Some(target) if ratio <= target => format!("{ratio:7.2}  <= {target:<4} ok"),
        Some(target) => {
            *missed += 1;
            format!("{ratio:7.2}  <= {target:<4} NO")
        }
    }
}

fn main() -> ExitCode {
    let paths: Vec<String> = env::args().skip(1).collect();
    match libraries(&paths) {
        Ok(libraries) => {
            bench(&libraries);
            ExitCode::SUCCESS
        }
        Err(reason) => {
            eprintln!("{reason}");
            ExitCode::from(2)
        }
    }
}

fn libraries(paths: &[String]) -> Result<Libraries, String> {
    match paths {
        [] => Ok(Libraries {
            library: Library::LINKED,
            before: None,
        }),
        [before, library] => Ok(Libraries {
            // SAFETY: whoever runs this names two builds of the library.
            library: unsafe { Library::load(library)? },
            before: Some(unsafe { Library::load(before)? }),
        }),
        _ => Err("usage: bench [BEFORE LIBRARY]".to_string()),
    }
}

fn bench(libraries: &Libraries) {
    println!("Nanoseconds of one call, median of {TURNS} turns.");
    println!("floor: one vectorised pass that sums the bytes that the call gets.");
    println!("fast: the same rules in Rust written for speed. model: the Rust model.");
    println!("A delivered message stands in the middle of the mail: half of it is searched,");
    println!("half closes up. The request that is delivered joins a queue, and the probe is");
    println!("stored and passed on. With an empty mail a delivery is refused with 8, with a");
    println!("full mail a request or release with 9, both after all bytes were looked at.");
    println!("With a full mail the table is full too: longest queues, every probe stored.");
    println!("Where a release is delivered all others wait for the item, in an order drawn at");
    println!("random if none is named, and the most senior becomes its holder. With M = 1 the");
    println!("release is the only message.");
    println!("In a search half of the mail goes in one direction, and the message found is");
    println!("dropped; an absent one is refused with 8. One item: all messages are of it.");
    println!("Other direction: all are of the session and the item, in the other direction.");
    println!("A cycle text is asked for in a full table, or in a cycle of all sessions; on no");
    println!("cycle it is refused with 10.");
    println!("Where a session is reopened all else is drawn at random. Nothing names it but, in");
    println!("one row, the last message: then it is refused with 15.");
    println!("Elsewhere session k has rank k, but where any ranks are named: these are drawn");
    println!("at random.");
    if libraries.before.is_some() {
        println!("before: an earlier library; it has no time where it lacks the call.");
    }

    let mut missed = 0;
    let largest = (LARGEST.sessions, LARGEST.capacity);
    for (n, capacity) in [(8, 64), (16, 256), largest] {
        let config = Config::plain(n, n, capacity);
        header(&config, libraries);
        let mut counts = vec![0, capacity / 8, capacity];
        if n == LARGEST.sessions {
            counts.insert(1, 64);
        }
        for count in counts {
            print(count, rows(&config, count), libraries, &mut missed);
        }
        print(0, text_rows(&config), libraries, &mut missed);
    }
    header(&LONG_QUEUE, libraries);
    print(1, long_queue_rows(), libraries, &mut missed);
    header(&LARGEST, libraries);
    print(LARGEST.capacity, search_rows(), libraries, &mut missed);
    for count in [0, LARGEST.capacity] {
        print(count, reopen_rows(&LARGEST, count), libraries, &mut missed);
    }
    header(&SMALL, libraries);
    print(0, reopen_rows(&SMALL, 0), libraries, &mut missed);
    print_drains(libraries, &mut missed);
    println!("\n{missed} targets missed.");
}

fn header(config: &Config, libraries: &Libraries) {
    let Config {
        sessions,
        items,
        capacity,
        ..
    } = config;
    let bytes = config.table_length() + config.mail_length();
    println!("\nS = {sessions}, M = {items}, C = {capacity}: {bytes} bytes");
    println!(
        "{:>6}  {:34}{:>8}{:>10}{:>10}{:>10}{:>10}  {:>7}{:13}{:>7}{:13}{:>7}{}",
        "mail",
        "call",
        "refusal",
        "library",
        "model",
        "floor",
        "fast",
        "/floor",
        "",
        "/model",
        "",
        "/fast",
        earlier_header(libraries),
    );
}

fn print(count: u64, rows: Vec<Row>, libraries: &Libraries, missed: &mut usize) {
    for row in rows {
        let refused = refusal(&libraries.library, row.call, &mut row.buffers.clone());
        let times = measure_call(&row, libraries);
        let &[library, model, floor, fast, ref before @ ..] = &times[..] else {
            unreachable!("each subject has its time");
        };
        println!(
            "{count:>6}  {:34}{refused:>8}{library:>10.0}{model:>10.0}{floor:>10.0}{fast:>10.0}  {} {} {}{}",
            row.name,
            beside(library / floor, row.floor_target, missed),
            beside(library / model, Some(MODEL), missed),
            beside(library / fast, Some(FAST), missed),
            beside_earlier(library, before),
        );
    }
}
