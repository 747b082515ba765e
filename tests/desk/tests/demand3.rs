//! Demand 3 by brute force, through the proved desk.

use days::demand3::{check, Report};
use days::kinds::kind;
use desk::ProvedDesk;

/// How many small days are checked.
const DAYS: u64 = 2_000;

#[test]
fn the_proved_desk_keeps_demand_3() {
    let mut report = Report::default();
    for seed in 0..DAYS {
        let found = check(&kind("small").day(seed), &mut ProvedDesk::default());
        let violations = &found.violations;
        assert!(violations.is_empty(), "seed {seed}: {violations:?}");
        report.add(found);
    }
    let counts = &report.counts;
    let refused = counts.refused.iter().all(|&times| times > 1_000);
    assert!(refused, "refused by 21 to 24: {:?}", counts.refused);
    assert!(counts.accepted > 10_000, "{} accepted", counts.accepted);
    assert!(counts.positions > 50_000, "{} read", counts.positions);
}
