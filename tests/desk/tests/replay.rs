//! Every kind of generated day, through the proved desk and the reference side by side.

use days::gate;
use days::kinds::kinds;
use days::replay::first_difference;
use days::Day;
use desk::scrambled::{scramble, Scrambled};
use desk::ProvedDesk;
use reference::Lent;

/// Answers, positions after each event, and what the memory says at the end.
#[test]
fn no_day_differs_from_the_reference() {
    for kind in kinds() {
        for (seed, day) in (0..).zip(kind.days()) {
            let (mut lent, mut desk) = (gate::reference(), ProvedDesk::default());
            let difference = first_difference(&day, &mut lent, &mut desk);
            assert_eq!(difference, None, "{}, seed {seed}", kind.name);
            assert_eq!(lent.desk(), desk.desk().as_ref(), "{} {seed}", kind.name);
        }
    }
}

/// Spare words, places off the roster, records not in use and the bytes behind the first 65,536 have
/// no meaning, and where in their region the records in use stand does not matter.
#[test]
fn no_day_differs_where_bytes_without_meaning_change() {
    for kind in kinds() {
        for (seed, day) in (0..).zip(kind.days()) {
            let (mut lent, mut scrambled) = (gate::reference(), Scrambled::new(seed));
            let difference = first_difference(&day, &mut lent, &mut scrambled);
            assert_eq!(difference, None, "{}, seed {seed}", kind.name);
        }
    }
}

/// The answers, the desk that the memory holds and its words without meaning, event by event.
#[test]
fn every_event_leaves_the_references_desk_and_no_other_word_changed() {
    let mut accepted = 0;
    for kind in kinds() {
        for (seed, day) in (0..).zip(kind.days()) {
            let (mut lent, mut desk) = (gate::reference(), ProvedDesk::default());
            let opened = (lent.open(&day.roster), desk.open(&day.roster));
            assert_eq!(opened.0, opened.1, "{}, seed {seed}", kind.name);
            if opened.1 == 0 {
                scramble(&mut desk, &mut days::random::Random::new(seed));
                let name = format!("{}, seed {seed}", kind.name);
                accepted += compare_events(&name, &day, &mut lent, &mut desk);
            }
        }
    }
    assert!(accepted > 20_000, "{accepted}");
}

/// Compares after each event of a day; gives how many were accepted.
fn compare_events(name: &str, day: &Day, lent: &mut Lent, desk: &mut ProvedDesk) -> usize {
    let mut accepted = 0;
    for (place, event) in (1..).zip(&day.events) {
        let before = desk.clone();
        let answer = desk.event(event);
        assert_eq!(answer, lent.event(event), "{name}, event {place}");
        if answer != 0 {
            continue;
        }
        accepted += 1;
        let words = desk.words();
        assert!(words.broken().is_empty(), "{name}, event {place}");
        assert_eq!(words.desk().as_ref(), lent.desk(), "{name}, event {place}");
        for word in words.without_meaning().expect("a sound desk") {
            let unchanged = words.at(word) == before.words().at(word);
            assert!(unchanged, "{name}, event {place}, word {word}");
        }
    }
    accepted
}
