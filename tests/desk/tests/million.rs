//! A million events, over one memory for each kind of day: each opening finds the desk that the
//! day before left.

use std::collections::BTreeMap;
use std::thread;

use days::gate;
use days::kinds::{kinds, Kind};
use days::Day;
use desk::ProvedDesk;
use reference::Lent;

/// How many events a kind of day gives at least.
const EVENTS: usize = 88_000;

/// How many of a kind whose rosters or lists of orders are the largest.
const EVENTS_OF_THE_LARGEST: usize = 24_000;

const LARGEST: [&str; 6] = [
    "ladder",
    "full list",
    "sixteens",
    "largest roster",
    "largest figures",
    "rosters",
];

/// The memory is read after every so many events, and after the last of a day.
const EVENTS_BETWEEN_READS: usize = 16;

/// How often each answer to an event was compared.
type Answers = BTreeMap<u8, usize>;

/// Days of new seeds until there are events enough.
fn compare_kind(kind: Kind) -> Answers {
    let (mut lent, mut desk) = (gate::reference(), ProvedDesk::default());
    let mut answers = Answers::new();
    let wanted = match LARGEST.contains(&kind.name) {
        true => EVENTS_OF_THE_LARGEST,
        false => EVENTS,
    };
    for seed in kind.seeds.. {
        let name = format!("{}, seed {seed}", kind.name);
        compare_day(&name, &kind.day(seed), &mut lent, &mut desk, &mut answers);
        if answers.values().sum::<usize>() >= wanted {
            break;
        }
    }
    answers
}

fn compare_day(
    name: &str,
    day: &Day,
    lent: &mut Lent,
    desk: &mut ProvedDesk,
    answers: &mut Answers,
) {
    let opened = desk.open(&day.roster);
    assert_eq!(opened, lent.open(&day.roster), "{name}");
    for (place, event) in (1..).zip(&day.events) {
        let answer = desk.event(event);
        assert_eq!(answer, lent.event(event), "{name}, event {place}");
        *answers.entry(answer).or_default() += 1;
        if place % EVENTS_BETWEEN_READS == 0 {
            compare_desks(&format!("{name}, event {place}"), place, lent, desk);
        }
    }
    compare_desks(name, day.events.len(), lent, desk);
}

/// What the memory says, and the positions of one account, which the number of events picks.
fn compare_desks(name: &str, events: usize, lent: &Lent, desk: &ProvedDesk) {
    assert_eq!(desk.desk().as_ref(), lent.desk(), "{name}");
    let Some(sizes) = lent.desk().map(|desk| desk.roster.sizes()) else {
        return;
    };
    let account = 1 + (events / EVENTS_BETWEEN_READS) as u16 % sizes.accounts;
    for instrument in 1..=sizes.instruments {
        let read = desk.instrument_position(account, instrument);
        assert_eq!(
            read,
            lent.instrument_position(account, instrument),
            "{name}"
        );
    }
    for group in 1..=sizes.groups {
        let read = desk.group_position(account, group);
        assert_eq!(read, lent.group_position(account, group), "{name}");
    }
}

#[test]
fn a_million_events_are_answered_as_by_the_reference() {
    let mut answers = Answers::new();
    thread::scope(|scope| {
        let threads: Vec<_> = kinds()
            .into_iter()
            .map(|kind| scope.spawn(move || compare_kind(kind)))
            .collect();
        for thread in threads {
            for (answer, times) in thread.join().expect("no difference") {
                *answers.entry(answer).or_default() += times;
            }
        }
    });
    let events: usize = answers.values().sum();
    assert!(events >= 1_000_000, "{events} events");
    for answer in [0].into_iter().chain(6..=24) {
        let times = answers.get(&answer).copied().unwrap_or(0);
        assert!(times >= 1_000, "{answer} was answered {times} times");
    }
}
