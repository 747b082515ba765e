//! Which answers each class of event can get: those of the table, all of them, and no other.

use std::collections::{BTreeMap, BTreeSet};

use days::answers::TABLE;
use days::class::Class;
use days::demand3::{answer, furthest_by_whole_fills};
use days::gate;
use days::kinds::{kind, kinds};
use days::opening;
use days::steps::{steps, Step};
use reference::{Lent, MEMORY};

/// How often each pair of the table has to be reached.
const FLOOR: u64 = 3;

#[test]
fn every_class_gets_its_possible_answers_and_no_other() {
    let mut reached: BTreeMap<(Class, u8), u64> = BTreeMap::new();
    for day in kinds().into_iter().flat_map(|kind| kind.days()) {
        for step in steps(&day, &mut gate::reference()) {
            *reached.entry((step.class, step.answer)).or_insert(0) += 1;
        }
    }
    let possible: BTreeSet<(Class, u8)> = TABLE
        .iter()
        .flat_map(|(class, answers)| answers.iter().map(|&answer| (*class, answer)))
        .collect();
    let impossible = |pair: &&(Class, u8)| !possible.contains(pair);
    let impossible: Vec<_> = reached.keys().filter(impossible).collect();
    assert!(
        impossible.is_empty(),
        "not possible by the table: {impossible:?}"
    );
    let seldom = |pair: &&(Class, u8)| reached.get(pair).is_none_or(|&count| count < FLOOR);
    let seldom: Vec<_> = possible.iter().filter(seldom).collect();
    assert!(
        seldom.is_empty(),
        "possible and reached too seldom: {seldom:?}"
    );
}

#[test]
fn every_answer_on_every_day_is_the_plain_books() {
    for kind in kinds() {
        for (seed, day) in (0..).zip(kind.days()) {
            for (place, step) in (1..).zip(steps(&day, &mut gate::reference())) {
                let expected = answer(&step.before, &step.trading, &step.bytes);
                assert_eq!(
                    step.answer, expected,
                    "{}, seed {seed}, event {place}",
                    kind.name
                );
            }
        }
    }
}

#[test]
fn every_position_after_every_day_is_the_plain_books() {
    let mut read = 0;
    for kind in kinds() {
        for day in kind.days() {
            let mut gate = gate::reference();
            let Some(book) = steps(&day, &mut gate).last().map(Step::after) else {
                continue;
            };
            for (place, expected) in furthest_by_whole_fills(&book) {
                assert_eq!(place.read(&gate), Ok(expected), "{}, {place:?}", kind.name);
                read += 1;
            }
        }
    }
    assert!(read > 5_000, "{read}");
}

#[test]
fn an_opening_is_answered_0_to_4() {
    let mut reached = BTreeSet::new();
    for (seed, day) in (0..).zip(kind("rosters").days()) {
        let answer = gate::reference().open(&day.roster);
        assert_eq!(answer, opening::answer(&day.roster), "seed {seed}");
        reached.insert(answer);
        if answer != 0 {
            let mut refused = gate::reference();
            refused.open(&day.roster);
            let answers = day.events.iter().map(|event| refused.event(event));
            assert!(answers.into_iter().all(|answer| answer == 5), "seed {seed}");
        }
        for length in [0, 1, MEMORY - 1] {
            assert_eq!(
                Lent::new(length).open(&day.roster),
                1,
                "1 comes before 2, 3 and 4"
            );
        }
    }
    assert_eq!(reached, BTreeSet::from([0, 2, 3, 4]));
}

#[test]
fn memory_that_is_short_or_holds_no_desk_gets_5() {
    let day = kind("noise").day(1);
    for length in [0, 1, MEMORY - 1, MEMORY] {
        let mut lent = Lent::new(length);
        for event in &day.events {
            assert_eq!(lent.event(event), 5, "5 comes before 6");
        }
        for number in [0, 1, 99] {
            assert_eq!(lent.instrument_position(number, number), Err(5));
            assert_eq!(lent.group_position(number, number), Err(5));
        }
    }
}

#[test]
fn positions_are_refused_by_7_and_then_8() {
    let day = kind("largest roster").day(1);
    let mut gate = gate::reference();
    assert_eq!(gate.open(&day.roster), 0);
    for account in [0, 17, 65_535] {
        for item in [0, 1, 5, 33] {
            assert_eq!(gate.instrument_position(account, item), Err(7));
            assert_eq!(gate.group_position(account, item), Err(7));
        }
    }
    for account in [1, 16] {
        for item in [0, 33, 65_535] {
            assert_eq!(gate.instrument_position(account, item), Err(8));
            assert_eq!(gate.group_position(account, item), Err(8));
        }
        assert_eq!(gate.group_position(account, 5), Err(8));
        assert!(gate.instrument_position(account, 32).is_ok());
        assert!(gate.group_position(account, 4).is_ok());
    }
}
