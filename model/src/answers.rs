//! What the calls answer, why they are refused, and the verbs of a step.

use crate::mailbox::Direction;

/// What a step answers.
#[derive(Clone, Copy, PartialEq, Eq, Debug, Default)]
pub struct Answer {
    pub refusal: u8,
    pub sent: u8,
    pub closed: u8,
    pub victim: u8,
    pub initiator: u8,
}

/// What a report answers (01: the length of the ring).
#[derive(Clone, Copy, PartialEq, Eq, Debug, Default)]
pub struct Cycle {
    pub refusal: u8,
    pub length: u8,
}

/// What a drain answers. F-2: "the number of deliveries made and which of the
/// three ended it (1, 2 or 3, the first that applies)".
#[derive(Clone, Copy, PartialEq, Eq, Debug, Default)]
pub struct Drained {
    pub refusal: u8,
    pub made: u64,
    /// An `Ending`, or 0 if refused.
    pub ending: u8,
}

/// What ends a drain, in the order in which it is judged.
#[derive(Clone, Copy, PartialEq, Eq, Debug)]
#[repr(u8)]
pub enum Ending {
    /// F-2: "the mail is empty"
    Empty = 1,
    /// F-2: "the next delivery would be refused with 9"
    Full = 2,
    /// F-2: "as many are made as the caller allows"
    Limit = 3,
}

impl Ending {
    pub const ALL: [Ending; 3] = [Ending::Empty, Ending::Full, Ending::Limit];
}

/// What the text of a cycle answers. F-4: "The answer is the length".
#[derive(Clone, Copy, PartialEq, Eq, Debug, Default)]
pub struct Text {
    pub refusal: u8,
    pub length: u16,
}

/// Why a call is refused (01: turned back), by number. The numbers tell no order:
/// the causes of a call are judged in the order of its list below.
#[derive(Clone, Copy, PartialEq, Eq, Debug)]
#[repr(u8)]
pub enum Refusal {
    /// "verb not 1 to 4 (step)"
    BadVerb = 1,
    /// "S, M or C beyond its bounds, or a length not matching"
    BadSize = 2,
    /// "table not in form"
    BadTable = 3,
    /// "mail not in form"
    BadMail = 4,
    /// "session or item number 0 or above S, M"
    BadNumber = 5,
    /// "request outside stage 1, release outside 1 and 3"
    WrongStage = 6,
    /// "request for an item in T's own mask, release of one not in it"
    WrongItem = 7,
    /// "delivery with no entry on that route"
    NoMessage = 8,
    /// "count after the step would pass C"
    MailFull = 9,
    /// F-4: "a session on no ring"
    NoCycle = 10,
    /// F-4: "a buffer too short for the whole text"
    ShortBuffer = 11,
    /// F-6: "A bad list gives 14 at start, after 2". No call gives 12 and 13.
    BadRanks = 14,
    /// F-7: "Where it is not allowed the answer is 15, after 2 to 5"
    InUse = 15,
}

impl Refusal {
    pub const ALL: [Refusal; 13] = [
        Refusal::BadVerb,
        Refusal::BadSize,
        Refusal::BadTable,
        Refusal::BadMail,
        Refusal::BadNumber,
        Refusal::WrongStage,
        Refusal::WrongItem,
        Refusal::NoMessage,
        Refusal::MailFull,
        Refusal::NoCycle,
        Refusal::ShortBuffer,
        Refusal::BadRanks,
        Refusal::InUse,
    ];

    /// The greatest number.
    pub const LAST: Refusal = Refusal::ALL[Refusal::ALL.len() - 1];

    /// F-6: "A bad list gives 14 at start, after 2".
    pub const START_ORDER: [Refusal; 2] = [Refusal::BadSize, Refusal::BadRanks];

    /// As the table of causes in 01 has them.
    pub const STEP_ORDER: [Refusal; 9] = [
        Refusal::BadVerb,
        Refusal::BadSize,
        Refusal::BadTable,
        Refusal::BadMail,
        Refusal::BadNumber,
        Refusal::WrongStage,
        Refusal::WrongItem,
        Refusal::NoMessage,
        Refusal::MailFull,
    ];

    /// It "reads the table alone and gives only 2, 3, 5".
    pub const REPORT_ORDER: [Refusal; 3] =
        [Refusal::BadSize, Refusal::BadTable, Refusal::BadNumber];

    /// F-2: "only 2, 3 and 4 of 01 apply to it, before any delivery".
    pub const DRAIN_ORDER: [Refusal; 3] = [Refusal::BadSize, Refusal::BadTable, Refusal::BadMail];

    /// F-4: "Refusals 2, 3 and 5 come first, then 10 [..] and 11".
    pub const TEXT_ORDER: [Refusal; 5] = [
        Refusal::BadSize,
        Refusal::BadTable,
        Refusal::BadNumber,
        Refusal::NoCycle,
        Refusal::ShortBuffer,
    ];

    /// F-7: "15, after 2 to 5".
    pub const REOPEN_ORDER: [Refusal; 5] = [
        Refusal::BadSize,
        Refusal::BadTable,
        Refusal::BadMail,
        Refusal::BadNumber,
        Refusal::InUse,
    ];
}

/// The refusal of an accepted call.
pub const ACCEPTED: u8 = 0;

/// "1 request", "2 release", "3 deliver from T to X. 4 deliver from X to T."
#[derive(Clone, Copy, PartialEq, Eq, Debug)]
#[repr(u8)]
pub enum Verb {
    Request = 1,
    Release = 2,
    DeliverToItem = 3,
    DeliverToSession = 4,
}

impl Verb {
    const ALL: [Verb; 4] = [
        Verb::Request,
        Verb::Release,
        Verb::DeliverToItem,
        Verb::DeliverToSession,
    ];

    pub fn decode(number: u64) -> Option<Verb> {
        Verb::ALL.into_iter().find(|verb| *verb as u64 == number)
    }

    /// The verb that delivers a message of this direction.
    pub fn delivers(direction: Direction) -> Verb {
        match direction {
            Direction::ToItem => Verb::DeliverToItem,
            Direction::ToSession => Verb::DeliverToSession,
        }
    }
}

/// A refused call returns "number, zeros".
macro_rules! number_and_zeros {
    ($($answer:ident),*) => {$(
        impl From<Refusal> for $answer {
            fn from(refusal: Refusal) -> $answer {
                $answer {
                    refusal: refusal as u8,
                    ..$answer::default()
                }
            }
        }
    )*};
}

number_and_zeros!(Answer, Cycle, Drained, Text);

impl From<Refusal> for u8 {
    fn from(refusal: Refusal) -> u8 {
        refusal as u8
    }
}
