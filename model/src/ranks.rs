//! Seniority: the ranks of the sessions, and who is senior by them.

use crate::layout::distinct;

/// The numbers of a byte, from 1 on.
const NUMBERS: [u8; 255] = {
    let mut numbers = [0; 255];
    let mut k = 0;
    while k < numbers.len() {
        numbers[k] = k as u8 + 1;
        k += 1;
    }
    numbers
};

/// The rank of each session. F-6: "the numbers 1 to S, with none missing and
/// none twice; rank 1 is the most senior".
#[derive(Clone, PartialEq, Eq, Debug)]
pub struct Ranks(Vec<u8>);

impl Ranks {
    /// F-6: "rank k for session k".
    pub fn plain(sessions: usize) -> Ranks {
        Ranks(Ranks::plain_list(sessions).to_vec())
    }

    /// The list of these. It ends where a byte does.
    pub const fn plain_list(sessions: usize) -> &'static [u8] {
        match NUMBERS.split_at_checked(sessions) {
            Some((list, _)) => list,
            None => &NUMBERS,
        }
    }

    /// Whether a list has these.
    pub fn is_plain(list: &[u8]) -> bool {
        list == Ranks::plain_list(list.len())
    }

    /// The ranks of a list, if they are such numbers. S is the length of the
    /// list, which has been judged before.
    pub fn decode(list: &[u8]) -> Option<Ranks> {
        let known = list.iter().all(|&r| (1..=list.len()).contains(&r.into()));
        (known && distinct(list)).then(|| Ranks(list.to_vec()))
    }

    /// The ranks as they stand in a list, that of session 1 first.
    pub fn bytes(&self) -> &[u8] {
        &self.0
    }

    pub fn of(&self, session: u8) -> u8 {
        self.0[usize::from(session) - 1]
    }

    /// Whether `session` is senior to `other`. F-6: "Senior and junior in every
    /// rule, and in the clause on victims, are read by rank."
    pub fn senior(&self, session: u8, other: u8) -> bool {
        self.of(session) < self.of(other)
    }

    pub fn more_junior(&self, one: u8, other: u8) -> u8 {
        if self.senior(one, other) {
            other
        } else {
            one
        }
    }

    /// The place of the most senior of these sessions.
    pub fn most_senior(&self, sessions: &[u8]) -> Option<usize> {
        let most = |&session: &u8| !sessions.iter().any(|&other| self.senior(other, session));
        sessions.iter().position(most)
    }
}
