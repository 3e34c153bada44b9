//! Each misreading of the statement program prints something else than the rules.

use misread::StatementMisreading;
use model::statement;
use model::statement::{input, Day, MAX_DAYS};

fn list(days: &[Day]) -> Vec<u8> {
    input(days.len() as u16, days)
}

#[test]
fn each_prints_something_else() {
    let longer = [list(&[(2, 1)]), vec![0]].concat();
    let noticed = [
        (StatementMisreading::OmitsDay366, list(&[(2, 1); MAX_DAYS])),
        (StatementMisreading::NobodyFirst, list(&[(0, 1)])),
        (StatementMisreading::RefusesEqual, list(&[(2, 2)])),
        (StatementMisreading::ExchangesArrays, list(&[(2, 1)])),
        (StatementMisreading::AcceptsLonger, longer),
        (StatementMisreading::RoundsDown, list(&[(3, 2)])),
        (StatementMisreading::RoundsUp, list(&[(3, 1)])),
        (StatementMisreading::TiesDown, list(&[(16, 3)])),
        (StatementMisreading::TiesUp, list(&[(16, 1)])),
        (StatementMisreading::TiesToOdd, list(&[(16, 1)])),
        (StatementMisreading::TiesByRolledBack, list(&[(16, 1)])),
        (StatementMisreading::WholeHalf, list(&[(3, 1)])),
    ];
    let all = [&StatementMisreading::OF_F5[..], &StatementMisreading::OF_F8].concat();
    assert_eq!(noticed.clone().map(|(misreading, _)| misreading)[..], all);
    for (misreading, input) in noticed {
        assert_ne!(
            misreading.statement(&input),
            statement(&input),
            "{misreading:?}"
        );
    }
}
