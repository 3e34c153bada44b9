//! The item record and what an item does.

use crate::branch::ItemBranch;
use crate::layout::{distinct, within, HOLDER, MAX_SESSIONS, QUEUE, QUEUE_LENGTH};
use crate::mailbox::Body;
use crate::ranks::Ranks;

#[derive(Clone, PartialEq, Eq, Debug)]
pub struct Item {
    /// The holder, or 0.
    pub holder: u8,
    /// The wait queue (01: the line), in order.
    pub queue: Vec<u8>,
}

/// Messages to sessions, in order of sending.
pub type ToSessions = Vec<(u8, Body)>;

/// What an item leaves after a delivery.
pub struct Outcome {
    pub item: Item,
    pub sends: ToSessions,
    /// Victim and initiator, if the item declares.
    pub declared: Option<(u8, u8)>,
    pub branch: ItemBranch,
}

impl Item {
    pub fn fresh() -> Item {
        Item {
            holder: 0,
            queue: Vec::new(),
        }
    }

    /// The record, if it is well-formed: "holders are 0 to S; the sessions of a
    /// line are distinct, in 1 to S, and none is the holder; what follows the
    /// line is zero".
    pub fn decode(bytes: &[u8], sessions: usize) -> Option<Item> {
        let holder = bytes[HOLDER];
        let length = usize::from(bytes[QUEUE_LENGTH]);
        if usize::from(holder) > sessions || length > MAX_SESSIONS {
            return None;
        }
        let (queue, unused) = bytes[QUEUE].split_at(length);
        let known = queue.iter().all(|&s| within(s.into(), sessions).is_some());
        let fits = distinct(queue)
            && known
            && !queue.contains(&holder)
            && unused.iter().all(|&byte| byte == 0);
        fits.then(|| Item {
            holder,
            queue: queue.to_vec(),
        })
    }

    pub fn encode(&self, bytes: &mut [u8]) {
        bytes.fill(0);
        bytes[HOLDER] = self.holder;
        bytes[QUEUE_LENGTH] = self.queue.len() as u8;
        bytes[QUEUE][..self.queue.len()].copy_from_slice(&self.queue);
    }

    /// "probe (R, holder) to the holder for each R in line senior to it".
    fn probes_of_queue(&self, ranks: &Ranks) -> ToSessions {
        self.queue
            .iter()
            .filter(|&&waiting| ranks.senior(waiting, self.holder))
            .map(|&waiting| self.probe_of(waiting))
            .collect()
    }

    fn probe_of(&self, waiting: u8) -> (u8, Body) {
        let probe = Body::Probe {
            initiator: waiting,
            junior: self.holder,
        };
        (self.holder, probe)
    }

    /// Resend to each in the queue but `except`, in order.
    fn resends(&self, except: Option<u8>) -> ToSessions {
        self.queue
            .iter()
            .filter(|&&waiting| Some(waiting) != except)
            .map(|&waiting| (waiting, Body::Resend))
            .collect()
    }

    fn gives(self, branch: ItemBranch, sends: ToSessions) -> Outcome {
        Outcome {
            item: self,
            sends,
            declared: None,
            branch,
        }
    }

    fn drops(self, branch: ItemBranch) -> Outcome {
        self.gives(branch, Vec::new())
    }

    /// "Item on delivery. Each record receives its message and gives back the
    /// record that follows." The message comes from session `from`.
    pub fn receive(self, from: u8, body: Body, ranks: &Ranks) -> Outcome {
        match body {
            Body::Request => self.requested(from, ranks),
            Body::Release => self.released(from, ranks),
            Body::Probe { initiator, junior } => self.probed(from, initiator, junior, ranks),
            Body::Clean { victim, initiator } => self.cleaned(from, victim, initiator, ranks),
            Body::Rebroadcast => self.rebroadcast(ranks),
            Body::Withdraw => self.withdraw(from),
            Body::Grant | Body::Resend | Body::Abort { .. } | Body::Withdrawn => {
                unreachable!("well-formed mail brings an item no {body:?}")
            }
        }
    }

    /// "dropped if T is the holder or in line. No holder: T becomes holder,
    /// grant to T. Else T joins the end; if T is senior to the holder, probe
    /// (T, holder) to the holder."
    fn requested(mut self, from: u8, ranks: &Ranks) -> Outcome {
        if from == self.holder {
            return self.drops(ItemBranch::RequestByHolder);
        }
        if self.queue.contains(&from) {
            return self.drops(ItemBranch::RequestAgain);
        }
        if self.holder == 0 {
            self.holder = from;
            return self.gives(ItemBranch::Granted, vec![(from, Body::Grant)]);
        }
        self.queue.push(from);
        if !ranks.senior(from, self.holder) {
            return self.gives(ItemBranch::JoinsJunior, Vec::new());
        }
        let sends = vec![self.probe_of(from)];
        self.gives(ItemBranch::JoinsSenior, sends)
    }

    /// "dropped unless T is holder. Empty line: no holder. Else [..] N, becomes
    /// holder and leaves the line; grant to N; then probe (R, N) to N for each
    /// remaining R senior to N; then resend to each remaining R; both in line
    /// order." F-1: "a freed item goes to the most senior session in its line", "N's
    /// place in the line closes up, and the others keep their order."
    fn released(mut self, from: u8, ranks: &Ranks) -> Outcome {
        if from != self.holder {
            return self.drops(ItemBranch::ReleaseByOther);
        }
        let Some(place) = ranks.most_senior(&self.queue) else {
            self.holder = 0;
            return self.gives(ItemBranch::Freed, Vec::new());
        };
        self.holder = self.queue.remove(place);
        let mut sends = vec![(self.holder, Body::Grant)];
        sends.extend(self.probes_of_queue(ranks));
        sends.extend(self.resends(None));
        self.gives(ItemBranch::NextHolder, sends)
    }

    /// "dropped if T is not in line, if no holder, or if the holder is senior
    /// to i. Holder junior to i: passed on to it. Holder is i: declared, abort
    /// (j, i) to j."
    fn probed(self, from: u8, initiator: u8, junior: u8, ranks: &Ranks) -> Outcome {
        if !self.queue.contains(&from) {
            return self.drops(ItemBranch::ProbeLate);
        }
        if self.holder == 0 {
            return self.drops(ItemBranch::ProbeUnheld);
        }
        if ranks.senior(self.holder, initiator) {
            return self.drops(ItemBranch::ProbeEnds);
        }
        if self.holder != initiator {
            let sends = vec![(self.holder, Body::Probe { initiator, junior })];
            return self.gives(ItemBranch::ProbePassed, sends);
        }
        let abort = Body::Abort {
            victim: junior,
            initiator,
        };
        Outcome {
            item: self,
            sends: vec![(junior, abort)],
            declared: Some((junior, initiator)),
            branch: ItemBranch::Declared,
        }
    }

    /// "dropped if no holder. Else clean to the holder, then probe (R, holder)
    /// to the holder for each R in line senior to it, then resend to each in
    /// line but T, both in line order."
    fn cleaned(self, from: u8, victim: u8, initiator: u8, ranks: &Ranks) -> Outcome {
        if self.holder == 0 {
            return self.drops(ItemBranch::CleanUnheld);
        }
        let mut sends = vec![(self.holder, Body::Clean { victim, initiator })];
        sends.extend(self.probes_of_queue(ranks));
        sends.extend(self.resends(Some(from)));
        self.gives(ItemBranch::CleanPassed, sends)
    }

    /// "dropped if no holder; the same probes, then resend to all in line, in
    /// the same order."
    fn rebroadcast(self, ranks: &Ranks) -> Outcome {
        if self.holder == 0 {
            return self.drops(ItemBranch::RebroadcastUnheld);
        }
        let mut sends = self.probes_of_queue(ranks);
        sends.extend(self.resends(None));
        self.gives(ItemBranch::Rebroadcast, sends)
    }

    /// "T leaves the line if there; withdrawn to T."
    fn withdraw(mut self, from: u8) -> Outcome {
        let branch = match self.queue.contains(&from) {
            true => ItemBranch::Withdrawn,
            false => ItemBranch::WithdrawnBefore,
        };
        self.queue.retain(|&waiting| waiting != from);
        self.gives(branch, vec![(from, Body::Withdrawn)])
    }
}
