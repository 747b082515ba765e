//! The answer to an opening on memory that is long enough: questions 2, 3 and 4.

use crate::plain::Roster;

const LARGEST_WEIGHT: i64 = 1_000_000;

/// The number of the first question that has a no; 0 if none has.
pub fn answer(bytes: &[u8]) -> u8 {
    let Some(roster) = Roster::read(bytes).filter(has_its_sizes) else {
        return 2;
    };
    let asked = [
        (3, names_what_it_has(&roster)),
        (4, weighs_in_range(&roster)),
    ];
    asked
        .iter()
        .find(|(_, yes)| !yes)
        .map_or(0, |&(number, _)| number)
}

fn has_its_sizes(roster: &Roster) -> bool {
    (1..=16).contains(&roster.accounts)
        && (1..=4).contains(&roster.groups)
        && (1..=8).contains(&roster.contracts())
        && (1..=32).contains(&roster.instruments())
}

fn names_what_it_has(roster: &Roster) -> bool {
    let contracts = roster
        .contracts_of()
        .all(|contract| roster.has_contract(contract));
    let groups = roster.groups_of().all(|group| roster.has_group(group));
    contracts && groups
}

fn weighs_in_range(roster: &Roster) -> bool {
    let weights = (1..=roster.instruments()).map(|instrument| roster.weight(instrument));
    weights
        .into_iter()
        .all(|weight| weight.abs() <= LARGEST_WEIGHT)
}
