//! Which answers each class of event gets from the proved desk: those of the table, all of them,
//! and no other; and on a desk that is not sound, 5.

use std::collections::{BTreeMap, BTreeSet};

use days::answers::TABLE;
use days::class::Class;
use days::gate;
use days::kinds::kinds;
use days::steps::steps;
use desk::layout::Field;
use desk::ProvedDesk;

/// How often each pair of the table has to be reached.
const FLOOR: u64 = 3;

/// Every class of event with every answer that it can get.
fn possible() -> BTreeSet<(Class, u8)> {
    let pairs = TABLE.iter().flat_map(|(class, answers)| {
        let pair = |&answer| (*class, answer);
        answers.iter().map(pair)
    });
    pairs.collect()
}

#[test]
fn every_class_gets_its_possible_answers_and_no_other() {
    let mut reached: BTreeMap<(Class, u8), u64> = BTreeMap::new();
    for day in kinds().into_iter().flat_map(|kind| kind.days()) {
        for step in steps(&day, &mut ProvedDesk::default()) {
            *reached.entry((step.class, step.answer)).or_insert(0) += 1;
        }
    }
    let possible = possible();
    assert_eq!(possible.len(), 211);
    let impossible = |pair: &&(Class, u8)| !possible.contains(pair);
    let impossible: Vec<_> = reached.keys().filter(impossible).collect();
    assert!(impossible.is_empty(), "not possible: {impossible:?}");
    let seldom = |pair: &&(Class, u8)| reached.get(pair).is_none_or(|&times| times < FLOOR);
    let seldom: Vec<_> = possible.iter().filter(seldom).collect();
    assert!(seldom.is_empty(), "reached too seldom: {seldom:?}");
}

/// Each event first to a desk of another kind, which answers 5, and then to the desk as it was.
#[test]
fn every_class_gets_5_on_a_desk_that_is_not_sound() {
    let mut reached = BTreeSet::new();
    for day in kinds().into_iter().flat_map(|kind| kind.days().take(3)) {
        let mut desk = ProvedDesk::default();
        desk.open(&day.roster);
        for step in steps(&day, &mut gate::reference()) {
            desk.put_word(Field::Kind.word(), 2);
            assert_eq!(desk.event(&step.bytes), 5, "{:?}", step.class);
            desk.put_word(Field::Kind.word(), 1);
            assert_eq!(desk.event(&step.bytes), step.answer, "{:?}", step.class);
            reached.insert(step.class);
        }
    }
    let classes: BTreeSet<Class> = TABLE.iter().map(|(class, _)| *class).collect();
    assert_eq!(reached, classes);
}
