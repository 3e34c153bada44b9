//! Each of 01's plausible misreadings, each of F-2's, those of F-6 that name other
//! sessions in a declaration and those of F-7 that spoil a list are caught by the
//! check. The rules themselves pass it on the same seeds, and so do those that
//! change answers and bytes alone.

use misread::Misreading;
use model::scenario::{run, run_reopening, Answering, Counts, BY_RULES, DELIVERIES_BOUND};

/// A misreading, a seed whose run catches it, and what the check then says.
const CAUGHT: [(Misreading, u64, &str); 28] = [
    (Misreading::VictimForwards, 1, "who lies on no cycle"),
    (Misreading::VictimForwards, 7, "not the most junior"),
    (Misreading::RebuildsFromSenderOnly, 7, "cycles closed"),
    (Misreading::RebuildsFromSenderOnly, 47, "cycles closed"),
    (Misreading::ReleasesEarly, 165, "cycles closed"),
    (Misreading::ReleasesEarly, 196, "cycles closed"),
    (Misreading::ForwardsUnchanged, 40, "mail not empty after"),
    (Misreading::ForwardsUnchanged, 271, "mail not empty after"),
    (Misreading::PassesLateProbe, 969, "who lies on no cycle"),
    (Misreading::PassesLateProbe, 12_077, "cycles closed"),
    (
        Misreading::SecondOldest,
        35,
        "other bytes than its single steps",
    ),
    (Misreading::SecondOldest, 1_027, "not Limit"),
    (
        Misreading::PassesOverFull,
        182,
        "counts a step refused with 9",
    ),
    (Misreading::PassesOverFull, 1_412, "not Full"),
    (
        Misreading::CountsRefused,
        30,
        "counts a step refused with 9",
    ),
    (
        Misreading::CountsRefused,
        946,
        "makes 1 deliveries, above 0",
    ),
    (Misreading::LimitBeforeEmpty, 0, "ending 3, not Empty"),
    (Misreading::LimitBeforeEmpty, 14, "ending 3, not Empty"),
    (Misreading::LimitBeforeFull, 946, "ending 3, not Full"),
    (Misreading::LimitBeforeFull, 1_027, "ending 3, not Full"),
    (Misreading::SeniorByNumber, 0, "not the most senior"),
    (Misreading::SeniorByNumber, 14, "not the most junior"),
    (Misreading::RanksReversed, 0, "not the most senior"),
    (Misreading::RanksReversed, 1, "not the most senior"),
    (Misreading::RankOfNext, 0, "not the most senior"),
    (Misreading::RankOfNext, 70, "not the most junior"),
    (Misreading::JuniorByNumber, 4, "not the most junior"),
    (Misreading::JuniorByNumber, 17, "not the most junior"),
];

/// The same for those of F-7, in runs in which sessions are reopened.
const CAUGHT_REOPENING: [(Misreading, u64, &str); 5] = [
    (Misreading::MailUnseen, 0, "who lies on no cycle"),
    (Misreading::MailUnseen, 32, "not the most junior"),
    (Misreading::MailUnseen, 2, "not the most senior"),
    (Misreading::ResetsRank, 0, "table is not well-formed"),
    (Misreading::ResetsRank, 1, "table is not well-formed"),
];

/// The steps of such a run.
const STEPS: u64 = 2_000;

fn reopening(seed: u64, by: Answering) -> Result<Counts, String> {
    run_reopening(seed, by, STEPS)
}

fn misread(misreading: &Misreading) -> Answering<'_> {
    Answering {
        calls: misreading,
        to_the_end: DELIVERIES_BOUND,
    }
}

/// Those that the check of the model catches.
fn misreadings() -> impl Iterator<Item = Misreading> {
    let (of_01, of_f2) = (Misreading::OF_01, Misreading::OF_F2);
    of_01.into_iter().chain(of_f2).chain(Misreading::OF_F6)
}

type Run = fn(u64, Answering) -> Result<Counts, String>;

/// The run of each seed catches its misreading and passes the rules.
fn catches(run: Run, caught: &[(Misreading, u64, &str)]) {
    for &(misreading, seed, expected) in caught {
        let reason = run(seed, misread(&misreading)).expect_err("the misreading passes the check");
        println!("{misreading:?}, seed {seed}: {reason}");
        assert!(reason.contains(expected), "{misreading:?}: {reason}");
        assert!(run(seed, BY_RULES).is_ok());
    }
}

#[test]
fn each_is_caught() {
    catches(run, &CAUGHT);
    catches(reopening, &CAUGHT_REOPENING);
    for misreading in misreadings().chain(Misreading::OF_F7) {
        let mut all = CAUGHT.iter().chain(&CAUGHT_REOPENING);
        assert!(all.any(|&(caught, _, _)| caught == misreading));
    }
}

const SEEDS: u64 = 2_000;
const REOPENING_SEEDS: u64 = 10;

/// How many of the runs fail the check.
fn failures(by: Answering) -> usize {
    (0..SEEDS).filter(|&s| run(s, by).is_err()).count()
}

fn reopening_failures(by: Answering) -> usize {
    (0..REOPENING_SEEDS)
        .filter(|&s| reopening(s, by).is_err())
        .count()
}

#[test]
fn on_the_same_seeds_only_the_rules_pass() {
    assert_eq!(failures(BY_RULES), 0);
    for misreading in misreadings() {
        let failures = failures(misread(&misreading));
        println!("{misreading:?}: caught by {failures} of {SEEDS} runs");
        assert!(failures > 0);
    }
    assert_eq!(reopening_failures(BY_RULES), 0);
    for misreading in Misreading::OF_F7 {
        let failures = reopening_failures(misread(&misreading));
        println!("{misreading:?}: caught by {failures} of {REOPENING_SEEDS} runs");
        assert!(failures > 0);
    }
}

/// So the comparison of bytes has to find it: compare/tests/comparison.rs.
#[test]
fn those_in_bytes_alone_pass_too() {
    for passes in Misreading::IN_BYTES {
        assert_eq!(failures(misread(&passes)), 0, "{passes:?}");
    }
    for passes in Misreading::OF_F7_IN_BYTES {
        assert_eq!(reopening_failures(misread(&passes)), 0, "{passes:?}");
    }
}
