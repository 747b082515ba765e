//! Openings: short memories, rosters of every sort, memory that holds another desk.

use std::collections::BTreeSet;

use days::kinds::kind;
use days::opening;
use days::plain::Roster;
use days::random::Random;
use desk::layout::{Field, WORDS};
use desk::ProvedDesk;
use reference::{Desk, Lent, MEMORY};

/// How often the rosters of the kind come, each time with other numbers and weights.
const ROUNDS: u64 = 4;

/// The rosters of the kind "rosters", and each with one byte changed.
fn rosters() -> Vec<Vec<u8>> {
    let mut random = Random::new(7);
    let mut rosters = Vec::new();
    for seed in 0..ROUNDS * kind("rosters").seeds {
        let roster = kind("rosters").day(seed).roster;
        let mut changed = roster.clone();
        if !changed.is_empty() {
            let place = random.below(changed.len());
            changed[place] = random.one_of(&[0, 1, 2, 4, 8, 9, 255]);
        }
        rosters.extend([roster, changed]);
    }
    rosters
}

/// Every word 0 but the kind of desk and the roster.
fn opened_words(roster: &Roster) -> Vec<u64> {
    let mut words = vec![0; WORDS];
    let mut put = |field: Field, value: u64| words[field.word()] = value;
    put(Field::Kind, 1);
    put(Field::Accounts, roster.accounts.into());
    put(Field::Groups, roster.groups.into());
    put(Field::Contracts, roster.contracts().into());
    put(Field::Instruments, roster.instruments().into());
    for (contract, group) in (1..).zip(roster.groups_of()) {
        put(Field::GroupOf(contract), group.into());
    }
    for (instrument, contract) in (1..).zip(roster.contracts_of()) {
        put(Field::ContractOf(instrument), contract.into());
        put(Field::Weight(instrument), roster.weight(instrument) as u64);
    }
    words
}

/// Opens a desk and holds answer and memory against what they must be. That a refusal changes no
/// byte, and an acceptance none behind the first 65,536, every opening checks.
fn open(desk: &mut ProvedDesk, roster: &[u8]) -> u8 {
    let answer = desk.open(roster);
    assert_eq!(answer, opening::answer(roster), "{roster:?}");
    if answer == 0 {
        let read = Roster::read(roster).expect("an accepted roster");
        let words: Vec<u64> = (0..WORDS).map(|word| desk.words().at(word)).collect();
        assert!(words == opened_words(&read), "{roster:?}");
        let fresh = Desk::new(reference::Roster::read(roster).expect("an accepted roster"));
        assert_eq!(desk.desk(), Some(fresh), "{roster:?}");
    }
    answer
}

/// A desk that has traded.
fn used_desk(seed: u64) -> ProvedDesk {
    let day = kind("largest roster").day(seed);
    let mut desk = ProvedDesk::default();
    assert_eq!(desk.open(&day.roster), 0);
    for event in &day.events {
        desk.event(event);
    }
    desk
}

#[test]
fn short_memory_is_refused_by_1() {
    for roster in rosters() {
        for length in [0, 1, MEMORY - 1] {
            assert_eq!(ProvedDesk::new(length).open(&roster), 1);
        }
    }
}

#[test]
fn memory_is_long_enough_from_65_536_bytes_on() {
    for length in [MEMORY, MEMORY + 1, 2 * MEMORY] {
        let mut reached = BTreeSet::new();
        for roster in rosters() {
            reached.insert(open(&mut ProvedDesk::new(length), &roster));
        }
        assert_eq!(reached, BTreeSet::from([0, 2, 3, 4]));
    }
}

#[test]
fn opening_over_a_used_desk() {
    let used = used_desk(3);
    let mut reached = BTreeSet::new();
    for roster in rosters() {
        let mut desk = used.clone();
        let answer = open(&mut desk, &roster);
        assert_eq!(answer == 0, desk != used, "a new desk, or the one before");
        reached.insert(answer);
    }
    assert_eq!(reached, BTreeSet::from([0, 2, 3, 4]));
}

/// The same desk whatever the memory held.
#[test]
fn opening_over_any_bytes() {
    let mut random = Random::new(11);
    for roster in rosters() {
        let bytes: Vec<u8> = (0..MEMORY + 9).map(|_| random.number() as u8).collect();
        open(&mut ProvedDesk::holding(&bytes), &roster);
    }
}

#[test]
fn openings_and_refused_openings_between_events() {
    let (mut lent, mut desk) = (Lent::new(MEMORY), ProvedDesk::default());
    let rosters = rosters();
    let mut random = Random::new(5);
    for seed in 0..40 {
        let day = kind("small").day(seed);
        assert_eq!(lent.open(&day.roster), desk.open(&day.roster));
        for event in &day.events {
            let roster = &rosters[random.below(rosters.len())];
            if opening::answer(roster) != 0 {
                assert_eq!(lent.open(roster), desk.open(roster));
            }
            assert_eq!(lent.event(event), desk.event(event));
            assert_eq!(lent.desk(), desk.desk().as_ref());
        }
    }
}
