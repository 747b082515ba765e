//! Gates that do no work, or stop doing it.

use super::{Fault, Faulty, How};
use crate::demand3::Violation::{self, Answer, PastLater, PastNotRefused, Position};

/// No line is ever set, so no N comes to a position limit: demand 2 alone catches these.
const NO_LINES: &[Violation] = &[Answer];
/// What is accepted is not kept.
const NOT_KEPT: &[Violation] = &[Answer, Position, PastNotRefused];
/// Everything is accepted.
const ACCEPTED: &[Violation] = &[Answer, Position, PastNotRefused, PastLater];

pub fn faults() -> Vec<Fault> {
    vec![
        says("refuses all", NO_LINES, refuses_all),
        says("repeats 6", NO_LINES, |_, _| 6),
        says("repeats 17", NO_LINES, |_, _| 17),
        says("repeats 21", NO_LINES, |_, _| 21),
        says("repeats 24", NO_LINES, |_, _| 24),
        says("repeats 0", ACCEPTED, |_, _| 0),
        says(
            "judges only the first event",
            ACCEPTED,
            judges_only_the_first,
        ),
        says("accepts without recording", NOT_KEPT, |gate, event| {
            gate.judge(event)
        }),
        says("says 18 with places free", &[Answer], says_18),
    ]
}

fn says(
    name: &'static str,
    caught_at: &'static [Violation],
    answer: fn(&mut Faulty, &[u8]) -> u8,
) -> Fault {
    Fault {
        name,
        caught_at,
        how: How::Says(answer),
    }
}

/// The right refusal, or 24 where there is none.
fn refuses_all(gate: &mut Faulty, event: &[u8]) -> u8 {
    match gate.judge(event) {
        0 => 24,
        number => number,
    }
}

fn judges_only_the_first(gate: &mut Faulty, event: &[u8]) -> u8 {
    match gate.events {
        0 => gate.desk.event(event),
        _ => 0,
    }
}

/// Takes a list of two open orders to be full.
fn says_18(gate: &mut Faulty, event: &[u8]) -> u8 {
    let full = gate
        .desk
        .desk()
        .is_some_and(|desk| desk.book.orders.len() >= 2);
    match (event.first(), gate.judge(event)) {
        (Some(4), 0) if full => 18,
        _ => gate.desk.event(event),
    }
}
