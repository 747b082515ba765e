//! Timed runs over a day. Each takes the CPU time of its events and not of its opening, in parts.

use std::time::Duration;

use wire::EVENT_LENGTH;

use crate::clock;
use crate::day::Day;
use crate::gates::{Checking, Proved, Run, Single, Trusting};

/// Single events are timed once the book has filled up: so many come first.
pub const WARM_UP: usize = 5_000;

/// The events of a part of a run, and of a part of single events.
pub const RUN_PART: usize = 16_384;
const SINGLE_PART: usize = 1_000;

/// The shortest time of each part of a run. A part is the same work in every repeat, so a slow
/// moment lengthens the parts of a repeat that it hits and not the whole.
#[derive(Default)]
pub struct Shortest(Vec<Duration>);

impl Shortest {
    fn keep(&mut self, parts: Vec<Duration>) {
        if self.0.is_empty() {
            self.0 = parts;
            return;
        }
        assert_eq!(self.0.len(), parts.len(), "every repeat has the same parts");
        for (shortest, part) in self.0.iter_mut().zip(parts) {
            *shortest = part.min(*shortest);
        }
    }

    /// Nanoseconds for each of the events that the parts are of.
    pub fn nanoseconds(&self, events: usize) -> f64 {
        let whole: Duration = self.0.iter().sum();
        whole.as_secs_f64() * 1e9 / events as f64
    }
}

/// A run that can be timed again and again.
pub type Timed<'a> = &'a dyn Fn() -> Vec<Duration>;

/// The shortest times of some runs. The runs take turns, so that a slow moment hits all of them.
pub fn best<const N: usize>(repeats: usize, runs: [Timed; N]) -> [Shortest; N] {
    let mut shortest = runs.map(|_| Shortest::default());
    for _ in 0..repeats {
        shorten(&mut shortest, runs);
    }
    shortest
}

/// Times each run once, and keeps the shorter times.
pub fn shorten<const N: usize>(shortest: &mut [Shortest; N], runs: [Timed; N]) {
    for (shortest, run) in shortest.iter_mut().zip(runs) {
        shortest.keep(run());
    }
}

/// `desk_run` over a day, in calls of `block` events.
pub fn proved_run(day: &Day, block: usize) -> Vec<Duration> {
    let mut desk = Proved::open(&day.roster);
    timed(&day.events, RUN_PART, |part| run(&mut desk, part, block))
}

/// The trusting gate over a day, in calls of `block` events.
pub fn trusting_run(day: &Day, block: usize) -> Vec<Duration> {
    let mut desk = Trusting::open(&day.roster);
    timed(&day.events, RUN_PART, |part| run(&mut desk, part, block))
}

/// `desk_event` over `count` events after the warm-up.
pub fn proved_single(day: &Day, count: usize) -> Vec<Duration> {
    let (before, events) = warm_up(day, count);
    let mut desk = Proved::open(&day.roster);
    run(&mut desk, before, WARM_UP);
    timed(events, SINGLE_PART, |part| single(&mut desk, part))
}

/// The checking gate over `count` events after the warm-up.
pub fn checking_single(day: &Day, count: usize) -> Vec<Duration> {
    let (before, events) = warm_up(day, count);
    let mut desk = Checking::open(&day.roster);
    single(&mut desk, before);
    timed(events, SINGLE_PART, |part| single(&mut desk, part))
}

/// The events of the warm-up, and `count` events after them.
fn warm_up(day: &Day, count: usize) -> (&[u8], &[u8]) {
    let (before, rest) = day.events.split_at(WARM_UP * EVENT_LENGTH);
    (before, &rest[..count * EVENT_LENGTH])
}

/// Answers events in calls of `block` events each.
pub fn run(gate: &mut impl Run, events: &[u8], block: usize) -> Vec<u8> {
    let mut answers = vec![0; events.len() / EVENT_LENGTH];
    let blocks = events.chunks(block * EVENT_LENGTH);
    for (events, answers) in blocks.zip(answers.chunks_mut(block)) {
        gate.run(events, answers);
    }
    answers
}

/// Answers events one at a time.
pub fn single(gate: &mut impl Single, events: &[u8]) -> Vec<u8> {
    let events = events.chunks(EVENT_LENGTH);
    events.map(|event| gate.event(event)).collect()
}

/// The CPU time that the work takes on each part of so many events.
fn timed(events: &[u8], part: usize, mut work: impl FnMut(&[u8]) -> Vec<u8>) -> Vec<Duration> {
    let time = |events| {
        let before = clock::thread();
        let answers = work(events);
        let time = clock::thread() - before;
        drop(answers);
        time
    };
    events.chunks(part * EVENT_LENGTH).map(time).collect()
}
