//! Potential positions without a formula: the furthest that a filling reaches.

use std::collections::BTreeSet;

use super::entry::Entry;
use super::filling::every_filling;
use super::position::{moved_by, Place, Position, Way};
use super::questions::before_limits;
use crate::gate::Gate;
use crate::plain::{Balances, Book, Event};

/// S of an instrument, 0 for a group; the furthest long and the furthest short position.
pub type Reading = [i64; 3];

/// What a reader of positions must report, for every account and each instrument and group: the
/// furthest of all fillings, which must be few.
pub fn furthest_of_all_fillings(book: &Book) -> Vec<(Place, Reading)> {
    let unfilled = |place| (place, as_it_stands(book, place));
    let mut readings: Vec<(Place, Reading)> = places(book).into_iter().map(unfilled).collect();
    every_filling(book, |balances| {
        for (place, reading) in &mut readings {
            let figure = |way| Position { place: *place, way }.figure(&book.roster, balances);
            reading[1] = reading[1].max(figure(Way::Long));
            reading[2] = reading[2].max(figure(Way::Short));
        }
        true
    });
    readings
}

/// The same by one filling for each position: that of whole fills toward it. It serves books of any
/// size.
pub fn furthest_by_whole_fills(book: &Book) -> Vec<(Place, Reading)> {
    let reading = |place: Place| {
        let figure = |way| {
            let position = Position { place, way };
            position.figure(&book.roster, &filled_toward(book, &position))
        };
        [
            as_it_stands(book, place)[0],
            figure(Way::Long),
            figure(Way::Short),
        ]
    };
    places(book)
        .into_iter()
        .map(|place| (place, reading(place)))
        .collect()
}

/// The balances after the filling that fills wholly each open order whose fills move the position,
/// and no other order.
fn filled_toward(book: &Book, position: &Position) -> Balances {
    let mut balances = book.balances.clone();
    for order in &book.orders {
        if moved_by(&book.roster, order).contains(position) {
            let balance = balances
                .entry((order.account, order.instrument))
                .or_insert(0);
            *balance += order.moved(order.remaining());
        }
    }
    balances
}

/// The answer that the plain book gives, 5 left aside: the first question with a no, the position
/// limits being judged by the filling of whole fills.
pub fn answer(book: &Book, trading: &BTreeSet<u16>, bytes: &[u8]) -> u8 {
    let before = before_limits(book, trading, bytes);
    let event = Event::read(bytes).filter(|_| before == 0);
    match event.and_then(|event| Entry::of(book, &event)) {
        Some(entry) => entry.first_past(|book, position, limit| {
            position.figure(&book.roster, &filled_toward(book, position)) > limit
        }),
        None => before,
    }
}

/// The questions from 21 to 24 whose limits an accepted N reaches exactly; none for another event.
pub fn limits_reached(book: &Book, event: &Event) -> Vec<u8> {
    let Some(Entry { book, limits, .. }) = Entry::of(book, event) else {
        return Vec::new();
    };
    let figure =
        |position: &Position| position.figure(&book.roster, &filled_toward(&book, position));
    let reached = limits
        .iter()
        .filter(|(position, limit)| figure(position) == *limit);
    reached.map(|(position, _)| position.question()).collect()
}

/// The reading for the filling that fills nothing.
fn as_it_stands(book: &Book, place: Place) -> Reading {
    let figure = |way| Position { place, way }.figure(&book.roster, &book.balances);
    let balance = match place {
        Place::Instrument {
            account,
            instrument,
        } => book.balance(account, instrument),
        Place::Group { .. } => 0,
    };
    [balance, figure(Way::Long), figure(Way::Short)]
}

fn places(book: &Book) -> Vec<Place> {
    let roster = &book.roster;
    let mut places = Vec::new();
    for account in 1..=roster.accounts {
        for instrument in 1..=roster.instruments() {
            places.push(Place::Instrument {
                account,
                instrument,
            });
        }
        for group in 1..=roster.groups {
            places.push(Place::Group { account, group });
        }
    }
    places
}

impl Place {
    /// What the gate reports here.
    pub fn read(&self, gate: &dyn Gate) -> Result<Reading, u8> {
        match *self {
            Place::Instrument {
                account,
                instrument,
            } => gate
                .instrument_position(account, instrument)
                .map(|position| [position.balance, position.long, position.short]),
            Place::Group { account, group } => gate
                .group_position(account, group)
                .map(|position| [0, position.long, position.short]),
        }
    }
}
