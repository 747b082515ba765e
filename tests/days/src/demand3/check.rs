//! The check of a day: answers, positions and both halves of demand 3, by enumeration.

use std::collections::{BTreeMap, BTreeSet};

use super::entry::Entry;
use super::filling::{every_filling, fillings, some_filling};
use super::furthest::furthest_of_all_fillings;
use super::position::Position;
use super::questions::before_limits;
use super::report::{Report, Violation};
use crate::gate::Gate;
use crate::plain::{Book, Event, Roster};
use crate::Day;

/// A day ends early at more fillings than this.
const MOST_FILLINGS: i64 = 20_000;

/// Positions are read after every so many events, and after the last.
const EVENTS_BETWEEN_READS: usize = 8;

/// Checks a day of few and small orders through a gate that is not yet opened.
pub fn check(day: &Day, gate: &mut dyn Gate) -> Report {
    let mut report = Report::default();
    let opened = gate.open(&day.roster);
    let Some(roster) = Roster::read(&day.roster).filter(|_| opened == 0) else {
        report.note(Violation::Answer, || {
            format!("the opening is answered {opened}")
        });
        return report;
    };
    let mut check = Check {
        gate,
        book: Book::new(roster),
        trading: BTreeSet::new(),
        watched: BTreeMap::new(),
        report,
        place: 0,
    };
    for event in &day.events {
        check.place += 1;
        if !check.event(event) {
            return check.report;
        }
        if check.place.is_multiple_of(EVENTS_BETWEEN_READS) {
            check.read_positions();
        }
    }
    check.read_positions();
    check.report
}

/// Whether the plain book can take an event that this question should have refused: it names what
/// there is, in figures that it can count with.
fn has_meaning(question: u8) -> bool {
    matches!(question, 0 | 10 | 14..=20)
}

fn some_filling_is_past(book: &Book, position: &Position, limit: i64) -> bool {
    some_filling(book, |balances| {
        position.figure(&book.roster, balances) > limit
    })
}

struct Check<'a> {
    gate: &'a mut dyn Gate,
    book: Book,
    /// The accounts of accepted NEWs.
    trading: BTreeSet<u16>,
    /// Positions that an accepted N moved, and the limits that they must not be past.
    watched: BTreeMap<Position, i64>,
    report: Report,
    /// The place of the event, from 1.
    place: usize,
}

impl Check<'_> {
    /// Checks one event. False if the day cannot go on: the gate accepted what has no meaning in
    /// the plain book, or there are too many fillings.
    fn event(&mut self, bytes: &[u8]) -> bool {
        let event = Event::read(bytes);
        let before = before_limits(&self.book, &self.trading, bytes);
        let entry = event
            .filter(|_| before == 0)
            .and_then(|event| Entry::of(&self.book, &event));
        if fillings(entry.as_ref().map_or(&self.book, |entry| &entry.book)) > MOST_FILLINGS {
            self.report.counts.too_wide += 1;
            return false;
        }
        let past = entry
            .as_ref()
            .map_or(0, |entry| entry.first_past(some_filling_is_past));
        let answer = self.gate.event(bytes);
        let expected = if before == 0 { past } else { before };
        if answer != expected {
            self.note(Violation::Answer, || {
                format!("answered {answer}, not {expected}")
            });
        }
        if let Some(entry) = &entry {
            self.judge(entry, past != 0, answer);
        }
        match event.filter(|_| has_meaning(before)) {
            Some(event) if answer == 0 => self.work(&event, entry),
            None if answer == 0 => return false,
            _ => {}
        }
        true
    }

    /// The first half: refused for a position limit exactly when some filling is past.
    fn judge(&mut self, entry: &Entry, past: bool, answer: u8) {
        let refused = (21..=24).contains(&answer);
        let n = || {
            format!(
                "{:?} under {:?} is answered {answer}",
                entry.order, entry.limits
            )
        };
        match (past, refused) {
            (true, false) => self.note(Violation::PastNotRefused, n),
            (false, true) => self.note(Violation::RefusedNotPast, n),
            _ => {}
        }
        self.report.counts.judged(entry, answer);
    }

    /// Works an accepted event in the book. A limit set again ends the watch of the positions that
    /// it applies to; N's positions come under watch.
    fn work(&mut self, event: &Event, entry: Option<Entry>) {
        let before = self.book.clone();
        self.book.work(event);
        if let Event::New { account, .. } = *event {
            self.trading.insert(account);
        }
        let (after, watched) = (&self.book, self.watched.len());
        self.watched
            .retain(|position, _| !position.is_set_again(event, &before, after));
        self.report
            .counts
            .worked(event, watched, self.watched.len());
        self.watched
            .extend(entry.into_iter().flat_map(|entry| entry.limits));
        self.check_watched();
    }

    /// The second half: no watched position is past its limit, for the balances as they stand and
    /// for every filling of what is open. A refused event leaves the book, and so this, as it was.
    fn check_watched(&mut self) {
        let (roster, watched) = (&self.book.roster, &self.watched);
        let within = |balances: &_| {
            watched
                .iter()
                .all(|(position, &limit)| position.figure(roster, balances) <= limit)
        };
        if !within(&self.book.balances) || !every_filling(&self.book, within) {
            self.note(Violation::PastLater, || {
                "a watched position is past its limit".to_string()
            });
        }
    }

    /// Every position read is the furthest that a filling of the plain book reaches.
    fn read_positions(&mut self) {
        for (place, expected) in furthest_of_all_fillings(&self.book) {
            self.report.counts.positions += 1;
            let read = place.read(self.gate);
            if read != Ok(expected) {
                let what = || format!("{place:?} is read as {read:?}, not {expected:?}");
                self.note(Violation::Position, what);
            }
        }
    }

    fn note(&mut self, violation: Violation, what: impl FnOnce() -> String) {
        let place = self.place;
        self.report
            .note(violation, || format!("event {place}: {}", what()));
    }
}
