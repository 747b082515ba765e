//! Every gate answers every event alike, or the benchmark stops.

use std::io;

use reference::{Lent, MEMORY};
use wire::EVENT_LENGTH;

use crate::day::Day;
use crate::gates::{Checking, Proved, Trusting};
use crate::programs::{self, Input};
use crate::timing::{run, single};

/// How many of the first events the second implementation of the tests answers, which is slow.
const REFERENCE: usize = 2_000;

/// The answers to a day's events, which the gates agree on. `desk_event` is asked the first `singles`.
pub fn answers(day: &Day, singles: usize) -> Vec<u8> {
    let answers = run(&mut Trusting::open(&day.roster), &day.events, day.count());
    let one_call = run(&mut Proved::open(&day.roster), &day.events, day.count());
    compare("desk_run", &one_call, &answers);
    let blocks = run(&mut Proved::open(&day.roster), &day.events, 1_024);
    compare("desk_run in blocks", &blocks, &answers);
    let checking = single(&mut Checking::open(&day.roster), &day.events);
    compare("the checking gate", &checking, &answers);
    let proved = single(&mut Proved::open(&day.roster), first(day, singles));
    compare("desk_event", &proved, &answers);
    compare("the reference", &reference(day), &answers);
    answers
}

/// Both programs print the same.
pub fn programs(input: &Input) -> io::Result<()> {
    let proved = input.printed_by(programs::PROVED)?;
    let baseline = input.printed_by(programs::BASELINE)?;
    assert!(proved == baseline, "the day programs print different lines");
    Ok(())
}

fn first(day: &Day, events: usize) -> &[u8] {
    &day.events[..day.events.len().min(events * EVENT_LENGTH)]
}

fn reference(day: &Day) -> Vec<u8> {
    let mut lent = Lent::new(MEMORY);
    assert_eq!(lent.open(&day.roster), 0, "the roster is accepted");
    let events = first(day, REFERENCE).chunks(EVENT_LENGTH);
    events.map(|event| lent.event(event)).collect()
}

/// The answers are the first of those expected.
fn compare(name: &str, answers: &[u8], expected: &[u8]) {
    for (place, (answer, expected)) in (1..).zip(answers.iter().zip(expected)) {
        assert_eq!(answer, expected, "{name}, event {place}");
    }
}
