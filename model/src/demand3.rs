//! The check of demand 3, as 01's section "What demand 3 counts" says it.

use crate::answers::{Answer, Drained, Ending, Refusal, ACCEPTED};
use crate::calls::{deliver, report, Calls};
use crate::mailbox::{count, Mailbox};
use crate::table::{rolled_back, Table};
use crate::waits::{cycle_members, standing_cycles};

/// What the list has counted so far.
#[derive(Clone, Copy, PartialEq, Eq, Debug, Default)]
pub struct Demand3 {
    /// "Rings closed: the sum of the closed fields that the steps of the list
    /// answer."
    pub closed: u64,
    /// "Sessions rolled back: the number of deliveries in the list that bring a
    /// session from another stage to stage 6." F-7: "counted each time".
    pub rolled_back: u64,
    /// Declarations seen, each of them checked.
    pub declared: u64,
    /// Those of them that name another victim than the greatest session number
    /// of the cycle.
    pub declared_by_rank: u64,
    /// Times the mail was empty after a call, each of them checked.
    pub empty: u64,
    /// Sessions reopened.
    pub reopened: u64,
}

impl Demand3 {
    /// Takes one more step of the list: its answer and both buffers before and
    /// after it.
    pub fn after_step(
        &mut self,
        answer: Answer,
        before: (&[u8], &[u8]),
        after: (&[u8], &[u8]),
    ) -> Result<(), String> {
        if answer.refusal != ACCEPTED {
            return check_refused(answer, before, after);
        }
        self.closed += u64::from(answer.closed);
        let records = self.after_accepted(before, after)?;
        if answer.victim != 0 && answer.initiator != 0 {
            self.declared += 1;
            let members = check_declaration(answer, &records)?;
            self.declared_by_rank += u64::from(members.iter().max() != Some(&answer.victim));
        }
        self.if_empty(&records, after)
    }

    /// Takes a reopening of the list: its refusal and both buffers before and
    /// after it.
    pub fn after_reopen(
        &mut self,
        refusal: u8,
        before: (&[u8], &[u8]),
        after: (&[u8], &[u8]),
    ) -> Result<(), String> {
        if refusal != ACCEPTED {
            return check_untouched(refusal, before, after);
        }
        if before.1 != after.1 {
            return Err("a reopening changed the mail".to_string());
        }
        self.reopened += 1;
        let records = self.after_accepted(before, after)?;
        self.if_empty(&records, after)
    }

    /// Both buffers after an accepted call are well-formed, and the sessions that
    /// it rolled back are counted. The records after it.
    fn after_accepted(
        &mut self,
        before: (&[u8], &[u8]),
        (table, mail): (&[u8], &[u8]),
    ) -> Result<Table, String> {
        let well_formed = |table| Table::decode(table).ok_or("the table is not well-formed");
        let records = well_formed(table)?;
        Mailbox::decode(mail, records.sessions.len(), records.items.len())
            .ok_or("the mail is not well-formed")?;
        self.rolled_back += rolled_back(&well_formed(before.0)?, &records);
        Ok(records)
    }

    /// The check of empty mail, if it is empty.
    fn if_empty(&mut self, records: &Table, (table, mail): (&[u8], &[u8])) -> Result<(), String> {
        if count(mail) != 0 {
            return Ok(());
        }
        self.empty += 1;
        self.check_empty(records, table)
    }

    /// Takes a drain of the list, with its limit and both buffers before and
    /// after it. It "counts as those single steps, with their answers": they
    /// are made again, by whoever made the drain.
    pub fn after_drain(
        &mut self,
        calls: &dyn Calls,
        limit: u64,
        drained: Drained,
        before: (&[u8], &[u8]),
        after: (&[u8], &[u8]),
    ) -> Result<(), String> {
        let Drained {
            refusal,
            made,
            ending,
        } = drained;
        if refusal != ACCEPTED {
            return Err(format!("a drain is refused with {refusal}"));
        }
        let (sessions, items) = Table::size(before.0).ok_or("the table has another length")?;
        let most = limit.min(drain_bound(sessions, items, count(before.1)));
        if made > most {
            return Err(format!("a drain makes {made} deliveries, above {most}"));
        }
        let (mut table, mut mail) = (before.0.to_vec(), before.1.to_vec());
        for _ in 0..made {
            let (old_table, old_mail) = (table.clone(), mail.clone());
            let answer = deliver(calls, 0, &mut table, &mut mail)
                .ok_or("a drain makes more deliveries than it can")?;
            if answer.refusal != ACCEPTED {
                let refusal = answer.refusal;
                return Err(format!("a drain counts a step refused with {refusal}"));
            }
            self.after_step(answer, (&old_table, &old_mail), (&table, &mail))?;
        }
        if (&*table, &*mail) != after {
            return Err("a drain leaves other bytes than its single steps".to_string());
        }
        let next = deliver(calls, 0, &mut table, &mut mail);
        let applies = match next.map(|answer| answer.refusal) {
            None => Ending::Empty,
            Some(ACCEPTED) => Ending::Limit,
            Some(_) => Ending::Full,
        };
        if ending != applies as u8 {
            return Err(format!("a drain answers ending {ending}, not {applies:?}"));
        }
        match applies {
            Ending::Limit if made != limit => {
                Err(format!("a drain stops after {made} of {limit} deliveries"))
            }
            // Also where the mail was empty before.
            Ending::Empty => {
                let records = Table::decode(after.0).ok_or("the table is not well-formed")?;
                self.check_empty(&records, after.0)
            }
            _ => Ok(()),
        }
    }

    /// With empty mail: as many rolled back as cycles closed, none standing.
    fn check_empty(&self, records: &Table, table: &[u8]) -> Result<(), String> {
        if self.closed != self.rolled_back {
            return Err(format!(
                "empty mail: {} cycles closed, {} sessions rolled back",
                self.closed, self.rolled_back
            ));
        }
        let standing = standing_cycles(records);
        if standing != 0 {
            return Err(format!("empty mail: {standing} standing cycles"));
        }
        for session in 1..=records.sessions.len() as u64 {
            let cycle = report(session, table);
            if (cycle.refusal, cycle.length) != (ACCEPTED, 0) {
                return Err(format!("empty mail: session {session} reports {cycle:?}"));
            }
        }
        Ok(())
    }
}

/// F-2: after an accepted start a drain "ends within a number of deliveries
/// given by a formula in S, M and the count at its start". This is the one that
/// docs/ states.
pub fn drain_bound(sessions: usize, items: usize, count: usize) -> u64 {
    let (s, m, n) = (sessions as u64, items as u64, count as u64);
    let h = 2 * s * s + 2 * s + 2;
    let c = m * h + 2 * s * s + 4;
    let k = c + h;
    s * (k * s + 4 * s * s + m * h) + n * k * (s + 1)
}

/// "Its ring is read in the table which that step leaves": the initiator lies
/// on it and is the most senior there, the victim the most junior. Its members.
fn check_declaration(answer: Answer, records: &Table) -> Result<Vec<u8>, String> {
    let Answer {
        victim, initiator, ..
    } = answer;
    let senior = |one, other| records.ranks.senior(one, other);
    let declared = format!("declared: victim {victim}, initiator {initiator}");
    let members = cycle_members(records, initiator);
    if members.is_empty() {
        return Err(format!("{declared}, who lies on no cycle"));
    }
    if members.iter().any(|&member| senior(member, initiator)) {
        return Err(format!("{declared}, not the most senior of {members:?}"));
    }
    let most_junior = !members.iter().any(|&member| senior(victim, member));
    if !members.contains(&victim) || !most_junior {
        return Err(format!("{declared}: not the most junior of {members:?}"));
    }
    Ok(members)
}

/// A refused step answers "number, zeros".
fn check_refused(
    answer: Answer,
    before: (&[u8], &[u8]),
    after: (&[u8], &[u8]),
) -> Result<(), String> {
    let refusal = answer.refusal;
    let bare = Answer {
        refusal,
        ..Answer::default()
    };
    if answer != bare {
        return Err(format!("a refused step answers {answer:?}"));
    }
    check_untouched(refusal, before, after)
}

/// A refused call leaves table and mail as they were, and after an accepted start
/// finds both well-formed.
fn check_untouched(
    refusal: u8,
    before: (&[u8], &[u8]),
    after: (&[u8], &[u8]),
) -> Result<(), String> {
    if before != after {
        return Err(format!("a call refused with {refusal} changed a buffer"));
    }
    if refusal == Refusal::BadTable as u8 || refusal == Refusal::BadMail as u8 {
        return Err(format!("refused with {refusal} after an accepted start"));
    }
    Ok(())
}
