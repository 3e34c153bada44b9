//! Reports.

use super::group::{Place, Places};
use super::{Coverage, REPORT};
use crate::comparison::Buffers;
use model::{Cycle, ACCEPTED};

const REPORTS: &[Place<Cycle>] = &[
    ("not on a cycle", |cycle| cycle.length == 0),
    ("cycle of 2", |cycle| cycle.length == 2),
    ("cycle of 3 to 63", |cycle| (3..64).contains(&cycle.length)),
    ("cycle of 64", |cycle| cycle.length == 64),
];

pub fn reports() -> Places<Cycle> {
    Places::new("Reports", 1, REPORTS)
}

impl Coverage {
    pub(crate) fn report(&mut self, session: u64, buffers: &Buffers, cycle: Cycle) {
        self.count(REPORT, cycle.refusal, &[session], buffers);
        if cycle.refusal == ACCEPTED {
            self.reports.meet(&cycle);
        }
    }
}
