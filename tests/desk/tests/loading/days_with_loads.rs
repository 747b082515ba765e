//! Random files on random desks, between the events of every kind of day.

use std::collections::BTreeMap;

use days::files::{steps, Step};
use days::random::Random;

use crate::pair::{days, Pair};

/// The desks agree after each load, and the answers to all else show whether they still do.
#[test]
fn no_day_with_loads_differs_from_the_reference() {
    let mut random = Random::new(71);
    let mut answers: BTreeMap<u8, usize> = BTreeMap::new();
    for day in days() {
        let mut pair = Pair::open(&day.roster);
        pair.scramble(&mut random);
        for step in steps(&day, 3, &mut random) {
            match step {
                Step::Event(event) => pair.event(&event),
                Step::Load(file) => {
                    let answer = pair.load(&file);
                    *answers.entry(answer).or_default() += 1;
                    answer
                }
            };
            if random.chance(3) {
                pair.scramble(&mut random);
            }
        }
        assert_eq!(pair.desk.desk().as_ref(), pair.lent.desk());
    }
    assert_eq!(
        answers.keys().copied().collect::<Vec<_>>(),
        [0, 7, 8, 9, 25, 26]
    );
    assert!(answers.values().all(|&times| times >= 200), "{answers:?}");
}
