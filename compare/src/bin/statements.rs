//! The statement program against the model's statement, byte for byte:
//! `statements PROGRAM`. Prints what the inputs reached, and fails if the two
//! differ, if something was not reached, or if a misreading of F-5 or F-8 would
//! print the same. `statements PROGRAM bench` times the longest list instead.

use compare::program::Program;
use misread::StatementMisreading;
use model::layout::read_u16;
use model::scenario::Random;
use model::statement;
use model::statement::{input, Day, BAD_LIST, MAX_DAYS, NOBODY};
use std::collections::BTreeMap;
use std::process::ExitCode;

/// Random lists.
const RUNS: u64 = 600;

const MEGABYTE: usize = 1 << 20;

/// The length of the longest statement: that of the longest list of the greatest
/// values.
const LONGEST: usize = 5771;

const MAX: u16 = u16::MAX;

/// The greatest sum of a list.
const MAX_SUM: u64 = MAX_DAYS as u64 * MAX as u64;

/// The greatest sum taken part with which every half can be a tie.
const MAX_TIES: u64 = MAX_SUM / 2000 * 2000;

/// Days at the bounds, and some that tell the order of their bytes.
const DAYS: [Day; 16] = [
    (MAX, MAX),
    (MAX, MAX - 1),
    (MAX, 0),
    (MAX - 1, MAX),
    (0, MAX),
    (0, 0),
    (0, 1),
    (1, 0),
    (1, 1),
    (1, 2),
    (3, 2),
    (1000, 999),
    (1001, 1),
    (256, 255),
    (255, 256),
    (258, 257),
];

/// Day counts, each with the number of days that follow. The last three fit if
/// the length is computed with 16 bits, or the count read in the other order of
/// its bytes.
const COUNTS: [(usize, usize); 17] = [
    (0, 0),
    (0, 1),
    (1, 0),
    (1, 2),
    (2, 1),
    (MAX_DAYS - 1, MAX_DAYS),
    (MAX_DAYS, MAX_DAYS - 1),
    (MAX_DAYS, MAX_DAYS + 1),
    (MAX_DAYS + 1, MAX_DAYS),
    (MAX_DAYS + 1, MAX_DAYS + 1),
    (1000, 1000),
    (65535, 0),
    (65535, MAX_DAYS),
    (65535, 65535),
    (16384, 0),
    (16385, 1),
    (256, 1),
];

fn list(days: &[Day]) -> Vec<u8> {
    input(days.len() as u16, days)
}

/// A list of so many days, of a shape of its own.
fn random_list(random: &mut Random, days: u64) -> Vec<Day> {
    let shape = random.between(1, 7);
    let most = [1, 9, 1000, u64::from(MAX) - 1][random.between(0, 3) as usize];
    let rate = random.between(0, 1000);
    let mut day = || {
        let taken_part = random.between(0, most);
        let rolled_back = match shape {
            // Seldom one more than took part.
            1 => taken_part + u64::from(random.one_in(200)),
            // Any number, so that nearly every list is refused.
            2 => random.between(0, most),
            // All or all but one.
            3 => taken_part.saturating_sub(random.between(0, 1)),
            // A rate that is exact, and one that seldom is.
            4 => return (1000 * (taken_part % 66), rate * (taken_part % 66)),
            5 => rate * taken_part / 1000,
            // Few days on which anybody took part.
            6 if !random.one_in(30) => return (0, 0),
            _ => random.between(0, taken_part),
        };
        (taken_part, rolled_back)
    };
    let days = (0..days).map(|_| day());
    days.map(|day| (day.0 as u16, day.1 as u16)).collect()
}

/// A list with these sums, on as few days as they need.
fn list_of_sums(mut taken_part: u64, mut rolled_back: u64) -> Vec<u8> {
    let mut days = Vec::new();
    while taken_part > 0 {
        let day = (taken_part.min(MAX.into()), rolled_back.min(MAX.into()));
        days.push((day.0 as u16, day.1 as u16));
        taken_part -= day.0;
        rolled_back -= day.1;
    }
    list(&days)
}

/// Lists for the rate alone. Of up to 2,000 taken part, every tie, and of an odd
/// number, which has none, every rate as near to a tie as can be. Of the greatest
/// sum taken part, which has no ties, the sums rolled back on both sides of every
/// half; of the greatest that has them all, every tie and its neighbours. Sums at
/// random, every other with a multiple of 16 taken part: only those have ties.
fn lists_for_the_rate(random: &mut Random) -> Vec<Vec<u8>> {
    let mut lists = Vec::new();
    for taken_part in 1..=2000_u64 {
        for rolled_back in 0..=taken_part {
            let twice_left = 2000 * rolled_back % (2 * taken_part);
            if twice_left.abs_diff(taken_part) <= 1 {
                lists.push(list_of_sums(taken_part, rolled_back));
            }
        }
    }
    for half in 0..1000 {
        let below = (2 * half + 1) * MAX_SUM / 2000;
        lists.extend([below, below + 1].map(|r| list_of_sums(MAX_SUM, r)));
        let tie = (2 * half + 1) * (MAX_TIES / 2000);
        lists.extend([tie - 1, tie, tie + 1].map(|r| list_of_sums(MAX_TIES, r)));
    }
    for run in 0..RUNS {
        let most = [100, 10_000, MAX_SUM][(run % 3) as usize];
        let multiple = [1, 16][(run % 2) as usize];
        let taken_part = multiple * random.between(1, most / multiple);
        lists.push(list_of_sums(taken_part, random.between(0, taken_part)));
    }
    lists
}

/// The longest list of the greatest values comes first.
fn inputs() -> Vec<Vec<u8>> {
    let mut inputs = vec![list(&[(MAX, MAX); MAX_DAYS])];
    for day in DAYS {
        for days in [1, 2, MAX_DAYS - 1, MAX_DAYS] {
            inputs.push(list(&vec![day; days]));
        }
        for other in [(0, 0), (5, 3)] {
            for place in [0, MAX_DAYS / 2, MAX_DAYS - 1] {
                let mut days = [other; MAX_DAYS];
                days[place] = day;
                inputs.push(list(&days));
            }
        }
    }
    for (count, days) in COUNTS {
        inputs.push(input(count as u16, &vec![(2, 1); days]));
    }
    // Too short, too long, and a megabyte without a list.
    let small = list(&[(1, 0), (700, 300), (0, 0), (2, 2), (9, 1)]);
    inputs.extend((0..small.len()).map(|length| small[..length].to_vec()));
    let longest = list(&[(700, 300); MAX_DAYS]);
    let nobody = list(&[(0, 0); 5]);
    for whole in [small, longest, nobody, list(&[(1, 1)])] {
        for less in [1, 2, 4] {
            inputs.push(whole[..whole.len() - less].to_vec());
        }
        for more in [1, 2, 4, MEGABYTE] {
            inputs.push([whole.clone(), vec![0; more]].concat());
        }
    }
    inputs.push(vec![0; MEGABYTE + 1]);
    inputs.push(vec![1; MEGABYTE + 1]);

    let mut random = Random::new(2026);
    for run in 0..RUNS {
        let days = match run % 4 {
            0 => MAX_DAYS as u64,
            1 => random.between(1, MAX_DAYS as u64),
            _ => random.between(1, 20),
        };
        let whole = list(&random_list(&mut random, days));
        // The first bytes of it too.
        if run % 8 == 1 {
            let length = random.between(0, whole.len() as u64 - 1) as usize;
            inputs.push(whole[..length].to_vec());
        }
        inputs.push(whole);
    }
    inputs.extend(lists_for_the_rate(&mut random));
    inputs
}

/// Places that inputs have to reach.
type Places<T> = Vec<(&'static str, T)>;

/// Whether an input is accepted or how it is refused, by what the model prints,
/// and which of the places for such inputs it reaches.
fn reached(input: &[u8], output: &[u8]) -> (&'static str, Places<bool>) {
    let count = input.get(..2).map_or(0, |bytes| read_u16(bytes).into());
    let length = 2 + 4 * count;
    let allowed = (1..=MAX_DAYS).contains(&count);
    let year = count == MAX_DAYS;
    if output == format!("{BAD_LIST}\n").as_bytes() {
        let fits = input.len() == length;
        let nobody = || input[2..2 + 2 * count].iter().all(|&byte| byte == 0);
        let places = vec![
            ("in all", true),
            ("empty", input.is_empty()),
            ("one byte", input.len() == 1),
            ("0 days", count == 0 && fits),
            ("above 366 days", count > MAX_DAYS && fits),
            ("too short", allowed && input.len() < length),
            ("by one byte", allowed && input.len() + 1 == length),
            ("too long", allowed && input.len() > length),
            ("by one byte", allowed && input.len() == length + 1),
            ("by one byte at 366 days", year && input.len() == length + 1),
            ("by a megabyte", allowed && input.len() == length + MEGABYTE),
            ("more rolled back on a day", allowed && fits && !nobody()),
            (
                "more rolled back and nobody took part",
                allowed && fits && nobody(),
            ),
        ];
        return ("refused with 12", places);
    }
    if output == format!("{NOBODY}\n").as_bytes() {
        let places = vec![("in all", true), ("1 day", count == 1), ("366 days", year)];
        return ("refused with 13", places);
    }
    let text = std::str::from_utf8(output).expect("a text");
    let number = |word: &str| word.parse::<u64>().expect("a number");
    let numbers: Vec<u64> = text.split_whitespace().map(number).collect();
    let (days, last) = numbers.split_at(3 * count);
    let day = |such: fn(u64, u64) -> bool| days.chunks(3).any(|day| such(day[1], day[2]));
    let [taken_part, rolled_back, rate] = last[..] else {
        panic!("not three numbers in the last line");
    };
    // How far the printed rate is from the exact one, times what took part.
    let away = (rate * taken_part).abs_diff(1000 * rolled_back);
    let exact = away == 0;
    let tie = 2 * away == taken_part;
    let up = rate * taken_part > 1000 * rolled_back;
    let great = taken_part >= MAX_TIES;
    // One more or one less rolled back would be at a half or beyond it.
    let nearly = !tie && 2 * away + 2000 >= taken_part;
    let places = vec![
        ("in all", true),
        ("1 day", count == 1),
        ("366 days", year),
        ("all on day 366", year && taken_part == days[3 * 365 + 1]),
        ("every value 65535", rolled_back == 65535 * 366),
        ("a day of zeros", day(|taken_part, _| taken_part == 0)),
        ("a day of equal numbers", day(|t, r| t == r && t > 0)),
        ("rate 0 with some rolled back", rolled_back > 0 && rate == 0),
        ("rate 1000", rate == 1000),
        (
            "rate 1000 with not all rolled back",
            rolled_back < taken_part && rate == 1000,
        ),
        ("other exact rates", exact && rate > 0 && rate < 1000),
        ("rounded down", !exact && !up),
        ("rounded up", up),
        ("a tie down", tie && !up),
        ("a tie up", tie && up),
        ("the next to a tie", 2 * away + 1 == taken_part),
        ("a tie of the greatest sums", tie && great),
        (
            "just below a half of the greatest sums",
            nearly && great && !up,
        ),
        (
            "just above a half of the greatest sums",
            nearly && great && up,
        ),
    ];
    ("accepted", places)
}

fn main() -> ExitCode {
    let Some(program) = Program::from_arguments() else {
        eprintln!("usage: statements PROGRAM [bench]");
        return ExitCode::from(2);
    };
    let inputs = inputs();
    if program.bench {
        let name = format!("statement of {MAX_DAYS} days");
        program.time(&name, &inputs[0], statement);
        return ExitCode::SUCCESS;
    }

    let expected: Vec<Vec<u8>> = inputs.iter().map(|input| statement(input)).collect();
    let slowest = match program.compare(&inputs, &expected) {
        Ok(slowest) => slowest,
        Err(reason) => {
            println!("FAILED: {reason}");
            return ExitCode::FAILURE;
        }
    };
    let mut groups: BTreeMap<&str, Places<u64>> = BTreeMap::new();
    let misreadings = StatementMisreading::OF_F5
        .iter()
        .chain(&StatementMisreading::OF_F8);
    let mut misread: Vec<(StatementMisreading, u64)> = misreadings.map(|&m| (m, 0)).collect();
    for (input, output) in inputs.iter().zip(&expected) {
        let (group, places) = reached(input, output);
        let none = || places.iter().map(|&(name, _)| (name, 0)).collect();
        let counts = groups.entry(group).or_insert_with(none);
        for ((_, count), (_, reached)) in counts.iter_mut().zip(&places) {
            *count += u64::from(*reached);
        }
        for (misreading, count) in &mut misread {
            *count += u64::from(misreading.statement(input) != *output);
        }
    }
    let longest = expected.iter().map(Vec::len).max().unwrap_or_default();

    println!("{} inputs: every byte agrees", inputs.len());
    for (group, places) in &groups {
        let places: Vec<String> = places
            .iter()
            .map(|(name, n)| format!("{name} {n}"))
            .collect();
        println!("{group}: {}", places.join(", "));
    }
    let misreadings: Vec<String> = misread.iter().map(|(m, n)| format!("{m:?} {n}")).collect();
    println!("would differ if misread: {}", misreadings.join(", "));
    println!(
        "longest output {longest} bytes, slowest input {} ms",
        slowest.as_millis()
    );
    let everywhere = groups.values().flatten().all(|&(_, count)| count > 0);
    let noticed = misread.iter().all(|&(_, count)| count > 0);
    if groups.len() == 3 && everywhere && noticed && longest == LONGEST {
        ExitCode::SUCCESS
    } else {
        println!("FAILED: not everything was reached");
        ExitCode::FAILURE
    }
}
