//! The session record, its stages, and what a session does.

use crate::branch::SessionBranch;
use crate::layout::{within, AWAITED, HELD, JUNIORS, MAX_ITEMS, MAX_SESSIONS, STAGE};
use crate::mailbox::Body;
use crate::ranks::Ranks;

/// "Stages: 1 growing, 2 waiting, 3 shrinking, 4 victim whose clean is on its
/// way, 5 victim withdrawing, 6 rolled back."
#[derive(Clone, Copy, PartialEq, Eq, Debug)]
#[repr(u8)]
pub enum Stage {
    Growing = 1,
    Waiting = 2,
    Shrinking = 3,
    Cleaning = 4,
    Withdrawing = 5,
    RolledBack = 6,
}

impl Stage {
    const ALL: [Stage; 6] = [
        Stage::Growing,
        Stage::Waiting,
        Stage::Shrinking,
        Stage::Cleaning,
        Stage::Withdrawing,
        Stage::RolledBack,
    ];

    fn decode(byte: u8) -> Option<Stage> {
        Stage::ALL.into_iter().find(|stage| *stage as u8 == byte)
    }

    /// "awaited is 1 to M in stages 2, 4, 5 and else 0".
    fn awaits(self) -> bool {
        matches!(self, Stage::Waiting | Stage::Cleaning | Stage::Withdrawing)
    }
}

#[derive(Clone, PartialEq, Eq, Debug)]
pub struct Session {
    pub stage: Stage,
    /// The awaited item, or 0.
    pub awaited: u8,
    /// "held items as a mask where bit k−1 is item k".
    pub held: u64,
    /// "for each initiator 1 to 64 the junior of the stored probe, or 0".
    pub juniors: [u8; MAX_SESSIONS],
}

/// Messages to items, in order of sending.
pub type ToItems = Vec<(u8, Body)>;

/// What a session leaves after a delivery.
pub struct Outcome {
    pub session: Session,
    pub sends: ToItems,
    pub branch: SessionBranch,
}

const NO_PROBES: [u8; MAX_SESSIONS] = [0; MAX_SESSIONS];

fn bit(item: u8) -> u64 {
    1 << (item - 1)
}

impl Session {
    /// "every session at stage 1, all else zero".
    pub fn fresh() -> Session {
        Session {
            stage: Stage::Growing,
            awaited: 0,
            held: 0,
            juniors: NO_PROBES,
        }
    }

    /// The record, if it is well-formed.
    pub fn decode(bytes: &[u8], sessions: usize, items: usize) -> Option<Session> {
        let stage = Stage::decode(bytes[STAGE])?;
        let awaited = bytes[AWAITED];
        let awaited_fits = if stage.awaits() {
            within(awaited.into(), items).is_some()
        } else {
            awaited == 0
        };
        let held = u64::from_le_bytes(bytes[HELD].try_into().ok()?);
        // "held bits lie in 1 to M"
        let held_fits = held.checked_shr(items as u32).unwrap_or(0) == 0;
        let juniors: [u8; MAX_SESSIONS] = bytes[JUNIORS].try_into().ok()?;
        // "juniors are 0 to S, and 0 for initiators above S"
        let (known, unknown) = juniors.split_at(sessions);
        let juniors_fit =
            known.iter().all(|&j| usize::from(j) <= sessions) && unknown.iter().all(|&j| j == 0);
        (awaited_fits && held_fits && juniors_fit).then_some(Session {
            stage,
            awaited,
            held,
            juniors,
        })
    }

    pub fn encode(&self, bytes: &mut [u8]) {
        bytes[STAGE] = self.stage as u8;
        bytes[AWAITED] = self.awaited;
        bytes[HELD].copy_from_slice(&self.held.to_le_bytes());
        bytes[JUNIORS].copy_from_slice(&self.juniors);
    }

    pub fn holds(&self, item: u8) -> bool {
        self.held & bit(item) != 0
    }

    /// The held items, rising.
    pub fn held_items(&self) -> impl Iterator<Item = u8> + '_ {
        (1..=MAX_ITEMS as u8).filter(|&item| self.holds(item))
    }

    /// The stored probes "by rising initiator": initiator and junior.
    pub fn probes(&self) -> impl Iterator<Item = (u8, u8)> + '_ {
        (1..).zip(self.juniors).filter(|&(_, junior)| junior != 0)
    }

    /// All of them, to one item.
    fn stored_probes(&self, item: u8) -> ToItems {
        self.probes()
            .map(|(initiator, junior)| (item, Body::Probe { initiator, junior }))
            .collect()
    }

    /// "T sends a request to X, then all its stored probes by rising
    /// initiator; stage 2, awaiting X."
    pub fn request(self, item: u8) -> (Session, ToItems) {
        let mut sends = vec![(item, Body::Request)];
        sends.extend(self.stored_probes(item));
        let after = Session {
            stage: Stage::Waiting,
            awaited: item,
            ..self
        };
        (after, sends)
    }

    /// "T sends a release to X and drops X from its held items; stage 3;
    /// stored probes are cleared."
    pub fn release(self, item: u8) -> (Session, ToItems) {
        let after = Session {
            stage: Stage::Shrinking,
            held: self.held & !bit(item),
            juniors: NO_PROBES,
            ..self
        };
        (after, vec![(item, Body::Release)])
    }

    fn gives(self, branch: SessionBranch, sends: ToItems) -> Outcome {
        Outcome {
            session: self,
            sends,
            branch,
        }
    }

    fn drops(self, branch: SessionBranch) -> Outcome {
        self.gives(branch, Vec::new())
    }

    /// "What a session does is settled by stage and message kind; any pair not
    /// named, or whose named condition fails, is dropped." The session has the
    /// number `own`, the message comes from item `from`.
    pub fn receive(self, own: u8, from: u8, body: Body, ranks: &Ranks) -> Outcome {
        match (body, self.stage) {
            (Body::Grant, Stage::Waiting) => self.granted(from),
            (Body::Probe { initiator, junior }, Stage::Growing | Stage::Waiting) => {
                self.probed(own, initiator, junior, ranks)
            }
            (Body::Resend, Stage::Waiting) => self.asked_again(from),
            (Body::Abort { victim, initiator }, Stage::Waiting) => self.aborted(victim, initiator),
            (Body::Clean { victim, initiator }, Stage::Growing | Stage::Waiting) => {
                self.cleaned(from, victim, initiator)
            }
            (Body::Clean { victim, .. }, Stage::Cleaning) => self.clean_at_victim(own, victim),
            (Body::Withdrawn, Stage::Withdrawing) => self.withdrawn(),
            _ => self.drops(SessionBranch::Unnamed),
        }
    }

    /// From the awaited item: "held, stage 1, awaits none".
    fn granted(self, from: u8) -> Outcome {
        if from != self.awaited {
            return self.drops(SessionBranch::GrantElsewhere);
        }
        let after = Session {
            stage: Stage::Growing,
            held: self.held | bit(self.awaited),
            awaited: 0,
            ..self
        };
        after.gives(SessionBranch::Granted, Vec::new())
    }

    /// "j becomes the more junior of j and T. Dropped unless none is stored for
    /// i or j is junior to the stored one; else stored, and in stage 2 sent to
    /// the awaited item."
    fn probed(mut self, own: u8, initiator: u8, junior: u8, ranks: &Ranks) -> Outcome {
        let junior = ranks.more_junior(junior, own);
        let stored = &mut self.juniors[usize::from(initiator) - 1];
        let branch = match *stored {
            0 => SessionBranch::ProbeStored,
            before if ranks.senior(before, junior) => SessionBranch::ProbeReplaces,
            _ => return self.drops(SessionBranch::ProbeKnown),
        };
        *stored = junior;
        let sends = if self.stage == Stage::Waiting {
            vec![(self.awaited, Body::Probe { initiator, junior })]
        } else {
            Vec::new()
        };
        self.gives(branch, sends)
    }

    /// From the awaited item: all stored probes to it.
    fn asked_again(self, from: u8) -> Outcome {
        if from != self.awaited {
            return self.drops(SessionBranch::ResendElsewhere);
        }
        let sends = self.stored_probes(self.awaited);
        self.gives(SessionBranch::Resent, sends)
    }

    /// "clean, with the abort's a and b, to the awaited item; probes cleared;
    /// stage 4".
    fn aborted(self, victim: u8, initiator: u8) -> Outcome {
        let sends = vec![(self.awaited, Body::Clean { victim, initiator })];
        let after = Session {
            stage: Stage::Cleaning,
            juniors: NO_PROBES,
            ..self
        };
        after.gives(SessionBranch::Aborted, sends)
    }

    /// "probes cleared; rebroadcast to every held item but the sender, in
    /// rising item number; in stage 2 then the clean to the awaited item."
    fn cleaned(self, from: u8, victim: u8, initiator: u8) -> Outcome {
        let others = self.held_items().filter(|&item| item != from);
        let mut sends: ToItems = others.map(|item| (item, Body::Rebroadcast)).collect();
        if self.stage == Stage::Waiting {
            sends.push((self.awaited, Body::Clean { victim, initiator }));
        }
        let after = Session {
            juniors: NO_PROBES,
            ..self
        };
        after.gives(SessionBranch::Cleaned, sends)
    }

    /// The victim's own clean is back: "withdraw to the awaited item, stage 5."
    fn clean_at_victim(self, own: u8, victim: u8) -> Outcome {
        if victim != own {
            return self.drops(SessionBranch::CleanElsewhere);
        }
        let sends = vec![(self.awaited, Body::Withdraw)];
        let after = Session {
            stage: Stage::Withdrawing,
            ..self
        };
        after.gives(SessionBranch::CleanBack, sends)
    }

    /// "release to each held item, rising; none held or awaited; stage 6".
    fn withdrawn(self) -> Outcome {
        let sends = self
            .held_items()
            .map(|item| (item, Body::Release))
            .collect();
        let after = Session {
            stage: Stage::RolledBack,
            held: 0,
            awaited: 0,
            ..self
        };
        after.gives(SessionBranch::RolledBack, sends)
    }

    /// F-7: "at stage 3 holding nothing, or at stage 6".
    pub fn may_reopen(&self) -> bool {
        match self.stage {
            Stage::Shrinking => self.held == 0,
            Stage::RolledBack => true,
            Stage::Growing | Stage::Waiting | Stage::Cleaning | Stage::Withdrawing => false,
        }
    }
}
