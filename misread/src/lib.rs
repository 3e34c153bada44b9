//! The entries of 01's "Plausible misreadings", misreadings of a later request, and
//! rules that a later request has replaced, to show that the tests would notice. A
//! misreading of what an item or a session does is a policy that a step is given;
//! every other one is put around the right answer.

mod drain;
mod reopen;
mod start;
mod statement;
mod step;
mod text;

use model::{Answer, Calls, Config, Drained, Text};

pub use statement::StatementMisreading;

#[derive(Clone, Copy, PartialEq, Eq, Debug)]
pub enum Misreading {
    /// "A victim that still forwards probes after its abort."
    VictimForwards,
    /// "Rebuilding only from the item that brought the clean."
    RebuildsFromSenderOnly,
    /// "Releasing before the withdraw is answered."
    ReleasesEarly,
    /// "Forwarding an unchanged probe, which circles for ever."
    ForwardsUnchanged,
    /// "Passing a late probe back to a sender that has become the holder".
    PassesLateProbe,
    /// 01's rule before F-1, "the first in line, N, becomes holder".
    FirstInLine,
    /// F-2 with the second-oldest entry delivered before the oldest.
    SecondOldest,
    /// F-2 with an oldest entry that does not fit passed over for one that does.
    PassesOverFull,
    /// F-2 with the delivery that is refused with 9 counted as made.
    CountsRefused,
    /// F-2 with the limit judged before the empty mail.
    LimitBeforeEmpty,
    /// F-2 with the limit judged before the next delivery is tried.
    LimitBeforeFull,
    /// 01's rule before F-6, "Session 1 is the most senior."
    SeniorByNumber,
    /// F-6 with rank S for the most senior.
    RanksReversed,
    /// F-6 with the rank of the next session taken for a session's own.
    RankOfNext,
    /// F-6 with the more junior of a probe's junior and T by number.
    JuniorByNumber,
    /// F-6 with the next holder by number, as F-1 had it.
    NextHolderByNumber,
    /// F-6 with stored probes sent by rising rank of the initiator.
    ProbesByRank,
    /// F-6 with the text from the lowest-numbered session, as F-4 had it.
    TextByNumber,
    /// F-6 with 14 judged before 2.
    RanksFirst,
    /// F-6 with 14 for a list of the wrong length.
    WrongLengthIs14,
    /// F-6 with a rank accepted twice at start.
    AcceptsRankTwice,
    /// F-6 with rank 0 accepted at start.
    AcceptsRank0,
    /// F-6 with rank S + 1 accepted at start.
    AcceptsRankAbove,
    /// F-7 with the mail not looked at.
    MailUnseen,
    /// F-7 allowed with an entry that names the session as a alone.
    UnseenAsA,
    /// F-7 allowed with an entry that names the session as b alone.
    UnseenAsB,
    /// F-7 with the session's rank set to its number.
    ResetsRank,
    /// F-7 with the lines not looked at.
    QueueUnseen,
    /// F-7 with the holders not looked at.
    HolderUnseen,
    /// F-7 allowed with the session as initiator of another's stored probe.
    StoredInitiatorUnseen,
    /// F-7 allowed with the session as junior of another's stored probe.
    StoredJuniorUnseen,
    /// F-7 allowed with a stored probe of the session's own that names it.
    OwnProbesUnseen,
    /// F-7 allowed at stage 3 with an item held.
    ReopensHolder,
    /// F-7 allowed at stage 5.
    ReopensWithdrawing,
    /// F-7 with 15 for an item in the mask at stage 6.
    RefusesMask,
    /// F-7 with the mask kept.
    KeepsMask,
    /// F-7 with the session's stored probes kept.
    KeepsProbes,
    /// F-7 with the number checked as an item's too.
    ChecksItem,
    /// F-7 with 15 for a number that is no session.
    InUseFirst,
    /// F-7 with mail not in form taken for empty mail.
    MailFormUnseen,
}

impl Misreading {
    /// Those of 01. The check of demand 3 catches each.
    pub const OF_01: [Misreading; 5] = [
        Misreading::VictimForwards,
        Misreading::RebuildsFromSenderOnly,
        Misreading::ReleasesEarly,
        Misreading::ForwardsUnchanged,
        Misreading::PassesLateProbe,
    ];

    /// Those of F-2. The check of a drain catches each.
    pub const OF_F2: [Misreading; 5] = [
        Misreading::SecondOldest,
        Misreading::PassesOverFull,
        Misreading::CountsRefused,
        Misreading::LimitBeforeEmpty,
        Misreading::LimitBeforeFull,
    ];

    /// Those of F-6 that name other sessions in a declaration. The check of
    /// demand 3 catches each.
    pub const OF_F6: [Misreading; 4] = [
        Misreading::SeniorByNumber,
        Misreading::RanksReversed,
        Misreading::RankOfNext,
        Misreading::JuniorByNumber,
    ];

    /// Misreadings and replaced rules under which demand 3 holds too; the bytes
    /// differ.
    pub const IN_BYTES: [Misreading; 3] = [
        Misreading::FirstInLine,
        Misreading::NextHolderByNumber,
        Misreading::ProbesByRank,
    ];

    /// Those of F-7 that spoil a list from a start. The check of demand 3 catches
    /// each.
    pub const OF_F7: [Misreading; 2] = [Misreading::MailUnseen, Misreading::ResetsRank];

    /// Those of F-7 that the check of demand 3 does not show; answers or bytes differ,
    /// mostly on forged buffers alone.
    pub const OF_F7_IN_BYTES: [Misreading; 15] = [
        Misreading::UnseenAsA,
        Misreading::UnseenAsB,
        Misreading::QueueUnseen,
        Misreading::HolderUnseen,
        Misreading::StoredInitiatorUnseen,
        Misreading::StoredJuniorUnseen,
        Misreading::OwnProbesUnseen,
        Misreading::ReopensHolder,
        Misreading::ReopensWithdrawing,
        Misreading::RefusesMask,
        Misreading::KeepsMask,
        Misreading::KeepsProbes,
        Misreading::ChecksItem,
        Misreading::InUseFirst,
        Misreading::MailFormUnseen,
    ];

    /// Those of F-6 in a text and at a start, which no step shows.
    pub const OUTSIDE_STEPS: [Misreading; 6] = [
        Misreading::TextByNumber,
        Misreading::RanksFirst,
        Misreading::WrongLengthIs14,
        Misreading::AcceptsRankTwice,
        Misreading::AcceptsRank0,
        Misreading::AcceptsRankAbove,
    ];
}

impl Calls for Misreading {
    fn start(&self, config: &Config, table: &mut [u8], mail: &mut [u8]) -> u8 {
        start::start(*self, config, table, mail)
    }

    fn step(&self, v: u64, s: u64, i: u64, table: &mut [u8], mail: &mut [u8]) -> Answer {
        step::step(*self, [v, s, i], table, mail)
    }

    fn drain(&self, limit: u64, table: &mut [u8], mail: &mut [u8]) -> Drained {
        drain::drain(*self, limit, table, mail)
    }

    fn cycle_text(&self, session: u64, table: &[u8], text: &mut [u8]) -> Text {
        text::cycle_text(*self, session, table, text)
    }

    fn reopen(&self, session: u64, table: &mut [u8], mail: &[u8]) -> u8 {
        reopen::reopen(*self, session, table, mail)
    }
}
