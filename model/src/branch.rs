//! The branches of the rules on delivery, by name: an item or a session says which one
//! it took.

macro_rules! branches {
    ($(#[$about:meta])* $branch:ident { $($name:ident = $text:literal,)* }) => {
        $(#[$about])*
        #[derive(Clone, Copy, PartialEq, Eq, Debug)]
        pub enum $branch {
            $($name,)*
        }

        impl $branch {
            pub const NAMES: &'static [&'static str] = &[$($text,)*];

            pub fn name(self) -> &'static str {
                $branch::NAMES[self as usize]
            }
        }
    };
}

branches! {
    /// Of an item.
    ItemBranch {
        RequestByHolder = "request: from the holder, dropped",
        RequestAgain = "request: from the queue, dropped",
        Granted = "request: no holder, granted",
        JoinsSenior = "request: joins, senior to the holder",
        JoinsJunior = "request: joins, junior to the holder",
        ReleaseByOther = "release: not from the holder, dropped",
        Freed = "release: empty queue, no holder",
        NextHolder = "release: next holder",
        ProbeLate = "probe: not from the queue, dropped",
        ProbeUnheld = "probe: no holder, dropped",
        ProbeEnds = "probe: holder senior, dropped",
        ProbePassed = "probe: holder junior, passed on",
        Declared = "probe: holder is the initiator, declared",
        CleanUnheld = "clean: no holder, dropped",
        CleanPassed = "clean: passed on",
        RebroadcastUnheld = "rebroadcast: no holder, dropped",
        Rebroadcast = "rebroadcast: done",
        Withdrawn = "withdraw: from the queue",
        WithdrawnBefore = "withdraw: not from the queue",
    }
}

branches! {
    /// Of a session.
    SessionBranch {
        Granted = "grant: from the awaited item",
        GrantElsewhere = "grant: from another item, dropped",
        ProbeStored = "probe: none stored",
        ProbeReplaces = "probe: junior to the stored one",
        ProbeKnown = "probe: not junior to the stored one, dropped",
        Resent = "resend: from the awaited item",
        ResendElsewhere = "resend: from another item, dropped",
        Aborted = "abort: taken",
        Cleaned = "clean: probes cleared",
        CleanBack = "clean: back at its victim",
        CleanElsewhere = "clean: of another victim at a victim, dropped",
        RolledBack = "withdrawn: rolled back",
        Unnamed = "any kind and stage that no rule names, dropped",
    }
}
