//! Demand 3 by brute force: every filling of small days.

use days::demand3::{check, furthest_by_whole_fills, furthest_of_all_fillings, Counts, Report};
use days::faults::{faults, Fault};
use days::gate;
use days::kinds::kind;
use days::steps::steps;
use days::Day;

/// How many small days the reference is checked over.
const DAYS: u64 = 6_000;

/// How many small days a faulty gate has to be caught within.
const DAYS_TO_CATCH: u64 = 200;

#[test]
fn the_reference_keeps_demand_3() {
    let mut report = Report::default();
    for seed in 0..DAYS {
        let found = check(&kind("small").day(seed), &mut gate::reference());
        assert!(
            found.violations.is_empty(),
            "seed {seed}: {:?}",
            found.violations
        );
        report.add(found);
    }
    every_branch_is_reached(&report.counts);
}

/// Fails where the check came by a branch too seldom to say anything about it.
fn every_branch_is_reached(counts: &Counts) {
    let floors = [
        ("refused by 21", counts.refused[0], 10_000),
        ("refused by 22", counts.refused[1], 10_000),
        ("refused by 23", counts.refused[2], 5_000),
        ("refused by 24", counts.refused[3], 5_000),
        ("REPLACEs refused", counts.refused_raises, 2_000),
        ("accepted", counts.accepted, 30_000),
        ("REPLACEs accepted", counts.accepted_raises, 3_000),
        ("accepted at weight 0", counts.accepted_without_group, 5_000),
        (
            "accepted while past on the other side",
            counts.accepted_past_elsewhere,
            4_000,
        ),
        ("accepted at a limit", counts.accepted_at_limit, 6_000),
        ("between open buys and sells", counts.between_sides, 5_000),
        (
            "with open orders in the group",
            counts.with_neighbour,
            15_000,
        ),
        ("later events", counts.later_events, 80_000),
        ("later fills", counts.later_fills, 20_000),
        ("limits set again", counts.set_again, 6_000),
        ("limits set elsewhere", counts.set_elsewhere, 6_000),
        ("positions read", counts.positions, 150_000),
    ];
    for (branch, count, floor) in floors {
        assert!(count >= floor, "{branch}: {count} of at least {floor}");
    }
    assert_eq!(counts.too_wide, 0, "days of too many fillings");
}

#[test]
fn every_faulty_gate_is_caught() {
    for fault in faults() {
        let report = until_caught(&fault);
        for violation in fault.caught_at {
            let caught = report.violations.contains_key(violation);
            assert!(caught, "{}: not caught at {violation:?}", fault.name);
        }
    }
}

/// Checks a faulty gate over small days until it is caught at all that it must be, or the days end.
fn until_caught(fault: &Fault) -> Report {
    let mut report = Report::default();
    for seed in 0..DAYS_TO_CATCH {
        report.add(check(&kind("small").day(seed), &mut fault.gate()));
        if fault
            .caught_at
            .iter()
            .all(|violation| report.violations.contains_key(violation))
        {
            break;
        }
    }
    report
}

/// So that the positions of larger days can be told without every filling.
#[test]
fn no_filling_goes_further_than_whole_fills_toward_a_position() {
    for seed in 0..300 {
        let day = kind("small").day(seed);
        for step in steps(&day, &mut gate::reference()) {
            let by_whole_fills = furthest_by_whole_fills(&step.before);
            assert_eq!(
                by_whole_fills,
                furthest_of_all_fillings(&step.before),
                "seed {seed}"
            );
        }
    }
}

/// Document 01's listing.
fn listing() -> Day {
    let spec = wire::RosterSpec {
        accounts: 1,
        groups: 1,
        groups_of: vec![1],
        instruments: vec![(1, 10_000), (1, -5_000)],
    };
    let events = [
        wire::limit(2, 1, 1, [100; 4]),
        wire::limit(3, 1, 1, [60, 60, 0, 0]),
        wire::balance(1, 1, -2),
        wire::new(wire::BUY, 1, 1, 7, 62),
        wire::new(wire::SELL, 1, 2, 8, 1),
        wire::fill(7, 12),
        wire::new(wire::BUY, 1, 2, 9, 4),
        wire::cancel(7),
    ];
    let events = events.iter().map(|event| event.bytes().to_vec()).collect();
    Day {
        roster: spec.bytes(),
        events,
    }
}

#[test]
fn the_listing_of_document_01_keeps_demand_3() {
    let found = check(&listing(), &mut gate::reference());
    assert!(found.violations.is_empty(), "{:?}", found.violations);
    assert_eq!(found.counts.refused, [0, 0, 1, 0]);
    assert_eq!(found.counts.accepted, 2);
}
