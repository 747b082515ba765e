//! A day event by event: what each event was, the plain book before it, and its answer.

use std::collections::BTreeSet;

use crate::class::Class;
use crate::gate::Gate;
use crate::plain::{Book, Event, Roster};
use crate::Day;

/// One event of a day.
#[derive(Clone, Debug)]
pub struct Step {
    pub bytes: Vec<u8>,
    pub class: Class,
    pub answer: u8,
    /// The plain book before the event.
    pub before: Book,
    /// The accounts of the NEWs accepted before the event.
    pub trading: BTreeSet<u16>,
}

impl Step {
    /// What the bytes say, if they pass question 6.
    pub fn event(&self) -> Option<Event> {
        Event::read(&self.bytes)
    }

    pub fn is_accepted(&self) -> bool {
        self.answer == 0
    }

    /// The plain book after the event.
    pub fn after(&self) -> Book {
        let mut book = self.before.clone();
        if let Some(event) = self.event().filter(|_| self.is_accepted()) {
            book.work(&event);
        }
        book
    }
}

/// The steps of a day through a gate that is not yet opened; none if the opening is refused.
pub fn steps(day: &Day, gate: &mut dyn Gate) -> Vec<Step> {
    let opened = gate.open(&day.roster);
    let Some(roster) = Roster::read(&day.roster).filter(|_| opened == 0) else {
        return Vec::new();
    };
    let (mut book, mut trading) = (Book::new(roster), BTreeSet::new());
    let mut steps = Vec::new();
    for bytes in &day.events {
        steps.push(Step {
            bytes: bytes.clone(),
            class: Class::of(&book, bytes),
            answer: gate.event(bytes),
            before: book.clone(),
            trading: trading.clone(),
        });
        let accepted = steps.last().is_some_and(Step::is_accepted);
        if let Some(event) = Event::read(bytes).filter(|_| accepted) {
            book.work(&event);
            if let Event::New { account, .. } = event {
                trading.insert(account);
            }
        }
    }
    steps
}
