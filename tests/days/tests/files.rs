//! The generated limits files through the reference: what each must be answered, and what it leaves.

use std::collections::BTreeMap;

use days::files::faulty::faulty;
use days::files::{elements, events, noise, several, spoilings, steps, write, Step};
use days::gate;
use days::kinds::{kind, kinds};
use days::opening;
use days::plain::Roster;
use days::random::Random;
use reference::Lent;

/// The rosters that are accepted of some days of every kind, each with a desk after half of its day.
fn desks() -> Vec<(Roster, Lent)> {
    let days = kinds().into_iter().flat_map(|kind| kind.days().take(4));
    let accepted = days.filter(|day| opening::answer(&day.roster) == 0);
    let desk = |day: days::Day| {
        let mut lent = gate::reference();
        assert_eq!(lent.open(&day.roster), 0);
        for event in &day.events[..day.events.len() / 2] {
            lent.event(event);
        }
        let roster = Roster::read(&day.roster).expect("an accepted roster can be read");
        (roster, lent)
    };
    accepted.map(desk).collect()
}

#[test]
fn a_file_leaves_what_its_events_leave_one_by_one() {
    let mut random = Random::new(61);
    let mut worked = 0;
    for (roster, before) in desks() {
        for _ in 0..40 {
            let file = elements(&mut random, &roster);
            let (mut loaded, mut one_by_one) = (before.clone(), before.clone());
            let bytes = write(&mut random, &file);
            let shown = bytes.escape_ascii();
            assert_eq!(loaded.load_limits(&bytes), 0, "{shown}");
            for event in events(&file) {
                assert_eq!(one_by_one.event(&event.bytes()), 0, "{event:?}");
                worked += 1;
            }
            assert!(loaded == one_by_one, "{shown}");
        }
    }
    assert!(worked > 10_000, "{worked}");
}

#[test]
fn every_spoiling_gets_its_answer_and_changes_nothing() {
    let mut random = Random::new(62);
    let mut spoiled: BTreeMap<&str, usize> = BTreeMap::new();
    for (roster, before) in desks() {
        for spoiling in spoilings() {
            for _ in 0..4 {
                let file = elements(&mut random, &roster);
                let Some(bytes) = spoiling.spoil(&mut random, &roster, &file) else {
                    continue;
                };
                let mut lent = before.clone();
                let answer = lent.load_limits(&bytes);
                let shown = bytes.escape_ascii();
                assert_eq!(answer, spoiling.answer, "{}: {shown}", spoiling.name);
                assert!(lent == before, "{}: {shown}", spoiling.name);
                *spoiled.entry(spoiling.name).or_default() += 1;
            }
        }
    }
    for spoiling in spoilings() {
        let times = spoiled.get(spoiling.name).copied().unwrap_or(0);
        assert!(times >= 50, "{}: {times} times", spoiling.name);
    }
}

#[test]
fn several_faults_and_noise_reach_every_answer() {
    let mut random = Random::new(63);
    let mut answers: [BTreeMap<u8, usize>; 2] = Default::default();
    for (roster, before) in desks() {
        for _ in 0..60 {
            let file = elements(&mut random, &roster);
            let bytes = write(&mut random, &file);
            let files = [
                several(&mut random, &roster, &file),
                noise(&mut random, bytes),
            ];
            for (answers, file) in answers.iter_mut().zip(files) {
                let mut lent = before.clone();
                let answer = lent.load_limits(&file);
                assert!(answer == 0 || lent == before);
                *answers.entry(answer).or_default() += 1;
            }
        }
    }
    for (answers, floor) in answers.into_iter().zip([50, 1]) {
        for answer in [0, 7, 8, 9, 25, 26] {
            let times = answers.get(&answer).copied().unwrap_or(0);
            assert!(times >= floor, "{answer}: {answers:?}");
        }
    }
}

#[test]
fn a_day_keeps_its_events_and_has_loads_of_every_answer_among_them() {
    let mut random = Random::new(64);
    let mut answers: BTreeMap<u8, usize> = BTreeMap::new();
    for day in kind("traffic").days() {
        let mut lent = gate::reference();
        assert_eq!(lent.open(&day.roster), 0);
        let mut kept = Vec::new();
        for step in steps(&day, 4, &mut random) {
            match step {
                Step::Event(event) => kept.push(event),
                Step::Load(file) => *answers.entry(lent.load_limits(&file)).or_default() += 1,
            }
        }
        assert_eq!(kept, day.events);
    }
    assert_eq!(
        answers.keys().copied().collect::<Vec<_>>(),
        [0, 7, 8, 9, 25, 26]
    );
    assert!(answers.values().all(|&times| times >= 20), "{answers:?}");
}

/// Both over the same desk, load by load.
#[test]
fn every_faulty_load_differs_from_the_reference() {
    let days: Vec<days::Day> = kind("traffic").days().collect();
    for fault in faulty() {
        let mut random = Random::new(65);
        let differs = days.iter().any(|day| {
            let mut lent = gate::reference();
            assert_eq!(lent.open(&day.roster), 0);
            steps(day, 2, &mut random)
                .into_iter()
                .any(|step| match step {
                    Step::Event(event) => {
                        lent.event(&event);
                        false
                    }
                    Step::Load(file) => {
                        let mut other = lent.clone();
                        let answers = (lent.load_limits(&file), fault.load(&mut other, &file));
                        answers.0 != answers.1 || lent != other
                    }
                })
        });
        assert!(differs, "{}", fault.name);
    }
}
