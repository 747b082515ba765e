//! Days with loads among their events.

use super::{elements, noise, several, spoilings, write};
use crate::opening;
use crate::plain::Roster;
use crate::random::Random;
use crate::Day;

/// What a desk is asked.
#[derive(Clone, PartialEq, Eq, Debug)]
pub enum Step {
    Event(Vec<u8>),
    Load(Vec<u8>),
}

/// The events of a day whose roster is accepted, with files of every sort among them, about one for
/// every so many events.
pub fn steps(day: &Day, between: usize, random: &mut Random) -> Vec<Step> {
    assert_eq!(opening::answer(&day.roster), 0, "the roster is accepted");
    let roster = Roster::read(&day.roster).expect("an accepted roster can be read");
    let mut steps = Vec::new();
    for event in &day.events {
        if random.below(between) == 0 {
            steps.push(Step::Load(any_file(random, &roster)));
        }
        steps.push(Step::Event(event.clone()));
    }
    steps
}

/// A file that is accepted, or one with a fault, several, or noise in it.
fn any_file(random: &mut Random, roster: &Roster) -> Vec<u8> {
    let elements = elements(random, roster);
    let file = write(random, &elements);
    match random.below(10) {
        0..=3 => file,
        4..=6 => {
            let spoiled = random.one_of(&spoilings()).spoil(random, roster, &elements);
            spoiled.unwrap_or(file)
        }
        7..=8 => several(random, roster, &elements),
        _ => noise(random, file),
    }
}
