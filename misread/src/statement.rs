//! The statement program of F-5 and F-8 misread.

use model::statement::{days, input, statement, BAD_LIST, MAX_DAYS, NOBODY};

#[derive(Clone, Copy, PartialEq, Eq, Debug)]
pub enum StatementMisreading {
    /// F-5 with the sums of the first 365 days.
    OmitsDay366,
    /// F-5 with 13 judged before a day that has more rolled back than taken part.
    NobodyFirst,
    /// F-5 with a day refused that has as many rolled back as taken part.
    RefusesEqual,
    /// F-5 with the array of sessions rolled back first.
    ExchangesArrays,
    /// F-5 with a list accepted that is one byte too long.
    AcceptsLonger,
    /// F-5's rule before F-8, "rounded down".
    RoundsDown,
    /// F-8 with the rate rounded up.
    RoundsUp,
    /// F-8 with a tie going down.
    TiesDown,
    /// F-8 with a tie going up.
    TiesUp,
    /// F-8 with a tie going to the odd one.
    TiesToOdd,
    /// F-8 with a tie going up if the number of sessions rolled back is odd.
    TiesByRolledBack,
    /// F-8 with half of an odd number of sessions taken part rounded down, so that a
    /// rate just below the middle of two is taken for a tie.
    WholeHalf,
}

use StatementMisreading::*;

impl StatementMisreading {
    /// Those of F-5.
    pub const OF_F5: [StatementMisreading; 5] = [
        OmitsDay366,
        NobodyFirst,
        RefusesEqual,
        ExchangesArrays,
        AcceptsLonger,
    ];

    /// Those of F-8, and the rule that it has replaced.
    pub const OF_F8: [StatementMisreading; 7] = [
        RoundsDown,
        RoundsUp,
        TiesDown,
        TiesUp,
        TiesToOdd,
        TiesByRolledBack,
        WholeHalf,
    ];

    /// What the program would print.
    pub fn statement(self, given: &[u8]) -> Vec<u8> {
        let right = statement(given);
        let refused = |refusal: u8| format!("{refusal}\n").into_bytes();
        let Some(days) = days(given) else {
            return match self {
                AcceptsLonger => statement(&given[..given.len().saturating_sub(1)]),
                _ => right,
            };
        };
        match self {
            OmitsDay366 if days.len() == MAX_DAYS && right != refused(BAD_LIST) => {
                let fewer = statement(&input(MAX_DAYS as u16 - 1, &days[..MAX_DAYS - 1]));
                match fewer == refused(NOBODY) {
                    true => fewer,
                    false => [all_but_the_last_line(&right), last_line(&fewer)].concat(),
                }
            }
            NobodyFirst if days.iter().all(|day| day.0 == 0) => refused(NOBODY),
            RefusesEqual if days.iter().any(|day| day.0 == day.1) => refused(BAD_LIST),
            ExchangesArrays => {
                let exchanged: Vec<_> = days.iter().map(|day| (day.1, day.0)).collect();
                statement(&input(days.len() as u16, &exchanged))
            }
            RoundsDown | RoundsUp | TiesDown | TiesUp | TiesToOdd | TiesByRolledBack
            | WholeHalf
                if ![BAD_LIST, NOBODY].map(refused).contains(&right) =>
            {
                let taken_part = days.iter().map(|day| u64::from(day.0)).sum();
                let rolled_back = days.iter().map(|day| u64::from(day.1)).sum();
                let rate = self.rate(taken_part, rolled_back);
                let sums = format!("{taken_part} {rolled_back} {rate}\n");
                [all_but_the_last_line(&right), sums.as_bytes()].concat()
            }
            _ => right,
        }
    }

    /// The whole number that is nearest to the rate, or not.
    fn rate(self, taken_part: u64, rolled_back: u64) -> u64 {
        let exact = 1000 * rolled_back;
        let distance = |whole: u64| {
            let numerator = whole * taken_part;
            match self {
                RoundsDown if numerator > exact => u64::MAX,
                RoundsUp if numerator < exact => u64::MAX,
                WholeHalf if numerator > exact => numerator - exact - taken_part % 2,
                _ => numerator.abs_diff(exact),
            }
        };
        // Of two that are as near, the one for which this is less.
        let order = |whole: u64| match self {
            TiesDown => whole,
            TiesUp => 1000 - whole,
            TiesToOdd => 1 - whole % 2,
            TiesByRolledBack if rolled_back.is_multiple_of(2) => whole,
            TiesByRolledBack => 1000 - whole,
            _ => whole % 2,
        };
        let nearest = (0..=1000).min_by_key(|&whole| (distance(whole), order(whole)));
        nearest.expect("a whole number")
    }
}

/// Where the last line of a text begins.
fn begin_of_last(text: &[u8]) -> usize {
    let before = &text[..text.len() - 1];
    let line_feed = before.iter().rposition(|&byte| byte == b'\n');
    line_feed.map_or(0, |place| place + 1)
}

fn last_line(text: &[u8]) -> &[u8] {
    &text[begin_of_last(text)..]
}

fn all_but_the_last_line(text: &[u8]) -> &[u8] {
    &text[..begin_of_last(text)]
}
