//! Demand 3 on two million random accepted steps with ranks that are not plain,
//! and on more that are refused or have plain ones, checked after every step.

use model::answers::Answer;
use model::demand3::Demand3;
use model::item::Item;
use model::layout::{mail_length, table_length};
use model::mailbox::Mailbox;
use model::scenario::{run, Counts, BY_RULES, DELIVERIES_BOUND};
use model::table::Table;
use model::{Ranks, Refusal};

/// Accepted steps with ranks that are not plain, in all runs.
const STEPS: u64 = 2_000_000;

#[test]
fn holds_after_every_step() {
    let mut total = Counts::default();
    for seed in 0.. {
        match run(seed, BY_RULES) {
            Ok(counts) => total.add(counts),
            Err(reason) => panic!("seed {seed}: {reason}"),
        }
        if total.by_rank >= STEPS {
            break;
        }
    }
    println!("{total:#?}");
    assert!(total.runs > 10_000);
    assert!(total.demand3.closed > 20_000);
    assert!(total.demand3.rolled_back > 20_000);
    assert!(total.demand3.declared > 20_000);
    assert!(total.demand3.declared_by_rank > 10_000);
    assert!(total.demand3.empty > 100_000);
    assert!(total.full > 10_000);
    assert!(total.stuck > 500);
    // The bound on deliveries alone is far from what the rules need.
    assert!(total.most_deliveries * 10 < DELIVERIES_BOUND);
    for ending in total.endings {
        assert!(ending > 500);
    }
}

/// Two sessions, each in the queue of the item that the other holds; session 3
/// waits for session 1.
fn with_cycle() -> Table {
    let mut table = Table::fresh(Ranks::plain(3), 2);
    table.items[0] = Item {
        holder: 1,
        queue: vec![2, 3],
    };
    table.items[1] = Item {
        holder: 2,
        queue: vec![1],
    };
    table
}

/// The check on one step from one table to another, with empty mail.
fn check(answer: Answer, before: &Table, after: &Table) -> Result<(), String> {
    let bytes = |table: &Table| {
        let mut bytes = vec![0; table_length(3, 2)];
        table.encode(&mut bytes);
        bytes
    };
    let mut empty = vec![0; mail_length(1)];
    Mailbox::empty(1).encode(&mut empty);
    let (before, after) = (bytes(before), bytes(after));
    Demand3::default().after_step(answer, (&before, &empty), (&after, &empty))
}

fn declaration(victim: u8, initiator: u8) -> Answer {
    Answer {
        sent: 1,
        victim,
        initiator,
        ..Answer::default()
    }
}

#[test]
fn the_check_can_fail() {
    let fresh = Table::fresh(Ranks::plain(3), 2);
    let cycle = with_cycle();
    let reason = |answer, before, after| check(answer, before, after).unwrap_err();

    assert_eq!(check(Answer::default(), &fresh, &fresh), Ok(()));
    let invented = Answer {
        closed: 1,
        ..Answer::default()
    };
    assert!(reason(invented, &fresh, &fresh).contains("1 cycles closed, 0 sessions rolled back"));
    assert!(reason(Answer::default(), &cycle, &cycle).contains("1 standing cycles"));
    assert!(reason(declaration(2, 1), &fresh, &fresh).contains("on no cycle"));
    assert!(reason(declaration(2, 3), &cycle, &cycle).contains("on no cycle"));
    assert!(reason(declaration(2, 2), &cycle, &cycle).contains("not the most senior"));
    assert!(reason(declaration(1, 1), &cycle, &cycle).contains("not the most junior"));
    assert!(reason(declaration(3, 1), &cycle, &cycle).contains("not the most junior"));
    // A right declaration passes; what fails then is the empty mail.
    assert!(reason(declaration(2, 1), &cycle, &cycle).contains("1 standing cycles"));

    let refused = |refusal: Refusal, sent| Answer {
        refusal: refusal as u8,
        sent,
        ..Answer::default()
    };
    assert_eq!(check(refused(Refusal::MailFull, 0), &cycle, &cycle), Ok(()));
    assert!(
        reason(refused(Refusal::MailFull, 1), &cycle, &cycle).contains("a refused step answers")
    );
    assert!(reason(refused(Refusal::MailFull, 0), &cycle, &fresh).contains("changed a buffer"));
    assert!(
        reason(refused(Refusal::BadTable, 0), &fresh, &fresh).contains("after an accepted start")
    );
    assert!(
        reason(refused(Refusal::BadMail, 0), &fresh, &fresh).contains("after an accepted start")
    );
}
