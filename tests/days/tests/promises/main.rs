//! Each kind of day is fixed by its seed and holds what it promises.

mod limits;
mod orders;
mod sizes;

use std::collections::BTreeSet;

use days::gate;
use days::kinds::{kind, kinds};
use days::steps::{steps, Step};

/// The steps of all days of a kind, day by day.
fn all(name: &str) -> Vec<Vec<Step>> {
    let steps = |day| steps(&day, &mut gate::reference());
    kind(name).days().map(steps).collect()
}

/// How many events are wanted ones.
fn count(days: &[Vec<Step>], wanted: impl Fn(&Step) -> bool) -> usize {
    days.iter().flatten().filter(|step| wanted(step)).count()
}

/// How many pairs of neighbouring events are wanted ones.
fn count_pairs(days: &[Vec<Step>], wanted: impl Fn(&Step, &Step) -> bool) -> usize {
    let pairs = days.iter().flat_map(|day| day.windows(2));
    pairs.filter(|pair| wanted(&pair[0], &pair[1])).count()
}

/// Every answer that wanted events get.
fn answers(days: &[Vec<Step>], wanted: impl Fn(&Step) -> bool) -> BTreeSet<u8> {
    let steps = days.iter().flatten().filter(|step| wanted(step));
    steps.map(|step| step.answer).collect()
}

#[test]
fn a_seed_fixes_a_day() {
    for kind in kinds() {
        for seed in [0, 1, 2, 1 << 40] {
            assert_eq!(kind.day(seed), kind.day(seed), "{} {seed}", kind.name);
        }
        assert_ne!(kind.day(0), kind.day(1), "{}", kind.name);
    }
}

#[test]
fn kinds_have_names_of_their_own_and_seeds() {
    let names: BTreeSet<&str> = kinds().iter().map(|kind| kind.name).collect();
    assert_eq!(names.len(), kinds().len());
    assert!(kinds()
        .iter()
        .all(|kind| kind.seeds > 0 && !kind.holds.is_empty()));
}
