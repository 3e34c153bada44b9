//! The library beside an earlier one, which need not reopen sessions: `earlier
//! BEFORE`. Both get the calls of the comparison on the same bytes. Every answer and
//! every byte left must be equal.

use compare::cases::all;
use compare::comparison::Comparison;
use compare::library::Library;
use model::{Answer, Calls, Config, Cycle, Drained, Text};
use std::cell::RefCell;
use std::collections::BTreeMap;
use std::env;
use std::fmt::Debug;
use std::process::ExitCode;
use std::rc::Rc;

/// Calls on which both must agree.
const CALLS_AT_LEAST: u64 = 1_000_000;

/// Calls on which both agree, by name and refusal.
type Agreed = Rc<RefCell<BTreeMap<(&'static str, u8), u64>>>;

struct Beside {
    before: Library,
    agreed: Agreed,
}

impl Beside {
    /// What the linked library answers. The earlier one must answer the same and
    /// leave the same bytes in the table and in the mail or the text.
    fn ask<A: PartialEq + Debug>(
        &self,
        name: &'static str,
        table: &mut [u8],
        other: &mut [u8],
        call: impl Fn(&Library, &mut [u8], &mut [u8]) -> (u8, A),
    ) -> A {
        let (mut old_table, mut old_other) = (table.to_vec(), other.to_vec());
        let (refusal, answer) = call(&Library::LINKED, table, other);
        let (_, before) = call(&self.before, &mut old_table, &mut old_other);
        assert_eq!(answer, before, "{name}: another answer");
        assert!(table == old_table, "{name}: another table");
        assert!(other == old_other, "{name}: another mail or text");
        let mut agreed = self.agreed.borrow_mut();
        *agreed.entry((name, refusal)).or_default() += 1;
        answer
    }
}

impl Calls for Beside {
    fn start(&self, config: &Config, table: &mut [u8], mail: &mut [u8]) -> u8 {
        self.ask("start", table, mail, |lib, table, mail| {
            let refusal = lib.start(config, table, mail);
            (refusal, refusal)
        })
    }

    fn step(&self, v: u64, s: u64, i: u64, table: &mut [u8], mail: &mut [u8]) -> Answer {
        self.ask("step", table, mail, |lib, table, mail| {
            let answer = lib.step(v, s, i, table, mail);
            (answer.refusal, answer)
        })
    }

    fn report(&self, session: u64, table: &[u8]) -> Cycle {
        let (copy, none) = (&mut table.to_vec(), &mut []);
        self.ask("report", copy, none, |lib, table, _| {
            let cycle = lib.report(session, table);
            (cycle.refusal, cycle)
        })
    }

    fn drain(&self, limit: u64, table: &mut [u8], mail: &mut [u8]) -> Drained {
        self.ask("drain", table, mail, |lib, table, mail| {
            let drained = lib.drain(limit, table, mail);
            (drained.refusal, drained)
        })
    }

    fn cycle_text(&self, session: u64, table: &[u8], text: &mut [u8]) -> Text {
        let copy = &mut table.to_vec();
        self.ask("cycle text", copy, text, |lib, table, text| {
            let written = lib.cycle_text(session, table, text);
            (written.refusal, written)
        })
    }

    /// By the linked library alone where the earlier one has no such call.
    fn reopen(&self, session: u64, table: &mut [u8], mail: &[u8]) -> u8 {
        if !self.before.has_reopen() {
            return Library::LINKED.reopen(session, table, mail);
        }
        let copy = &mut mail.to_vec();
        self.ask("reopen", table, copy, |lib, table, mail| {
            let refusal = lib.reopen(session, table, mail);
            (refusal, refusal)
        })
    }
}

fn compare(path: &str) -> Result<(), String> {
    // SAFETY: whoever runs this names a build of the library.
    let before = unsafe { Library::load(path)? };
    let agreed = Agreed::default();
    let counted = Rc::clone(&agreed);
    all(&mut Comparison::new(Beside { before, agreed }))?;
    println!("Calls on which both libraries agree, by refusal");
    for ((name, refusal), count) in counted.borrow().iter() {
        println!("  {name:10}{refusal:>4}{count:>10}");
    }
    let calls: u64 = counted.borrow().values().sum();
    println!("{calls} calls: every answer and every byte agree.");
    if calls < CALLS_AT_LEAST {
        return Err(format!("fewer than {CALLS_AT_LEAST} calls"));
    }
    Ok(())
}

fn main() -> ExitCode {
    let path = env::args().nth(1).ok_or("usage: earlier BEFORE".into());
    match path.and_then(|path| compare(&path)) {
        Ok(()) => ExitCode::SUCCESS,
        Err(reason) => {
            println!("FAILED: {reason}");
            ExitCode::FAILURE
        }
    }
}
