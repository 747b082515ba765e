//! N: a NEW, or a REPLACE that raises, that passes every question before 21.

use super::filling::some_filling;
use super::position::{moved_by, Place, Position};
use super::questions::entered;
use crate::plain::{Book, Event, Order, Side};

/// N, the book with N worked, and the limits of the positions that N's own fills move.
#[derive(Clone, Debug)]
pub struct Entry {
    pub order: Order,
    /// The open orders and N. A REPLACE is counted once, at its new total.
    pub book: Book,
    pub limits: Vec<(Position, i64)>,
    pub raises: bool,
}

impl Entry {
    /// N, if the event is one. It has passed the questions before 21, so its lines are set.
    pub fn of(book: &Book, event: &Event) -> Option<Entry> {
        let order = entered(book, event)?;
        let mut worked = book.clone();
        worked.work(event);
        let limit = |position: Position| Some((position, position.limit(book)?));
        Some(Entry {
            order,
            limits: moved_by(&book.roster, &order)
                .into_iter()
                .filter_map(limit)
                .collect(),
            book: worked,
            raises: matches!(event, Event::Replace { .. }),
        })
    }

    /// The number of the first position limit that some filling is past, as `past` finds it for the
    /// book, a position and its limit; 0 if there is none.
    pub fn first_past(&self, past: impl Fn(&Book, &Position, i64) -> bool) -> u8 {
        let numbers = self
            .limits
            .iter()
            .filter(|(position, limit)| past(&self.book, position, *limit));
        numbers
            .map(|(position, _)| position.question())
            .min()
            .unwrap_or(0)
    }

    /// Whether some filling reaches one of the limits exactly.
    pub fn reaches_a_limit(&self) -> bool {
        let roster = &self.book.roster;
        self.limits.iter().any(|(position, limit)| {
            some_filling(&self.book, |balances| {
                position.figure(roster, balances) == *limit
            })
        })
    }

    /// Whether the instrument or group is past a limit on a side that N does not move.
    pub fn is_past_elsewhere(&self) -> bool {
        self.limits.iter().any(|(moved, _)| {
            let other = Position {
                way: moved.way.other(),
                ..*moved
            };
            let figure = other.figure(&self.book.roster, &self.book.balances);
            other.limit(&self.book).is_some_and(|limit| figure > limit)
        })
    }

    /// Whether the account has another open order of each side in N's instrument.
    pub fn stands_between_sides(&self) -> bool {
        let Order {
            id,
            account,
            instrument,
            ..
        } = self.order;
        let rests = |side: Side| {
            self.book.orders.iter().any(|order| {
                let same = order.account == account && order.instrument == instrument;
                same && order.id != id && order.side == side
            })
        };
        rests(Side::Buy) && rests(Side::Sell)
    }

    /// Whether the account has an open order in another instrument of N's group.
    pub fn has_neighbour(&self) -> bool {
        let Order {
            account,
            instrument,
            ..
        } = self.order;
        let group = |instrument| self.book.roster.group(instrument);
        let moves_group = self
            .limits
            .iter()
            .any(|(position, _)| matches!(position.place, Place::Group { .. }));
        moves_group
            && self.book.orders.iter().any(|order| {
                order.account == account
                    && order.instrument != instrument
                    && group(order.instrument) == group(instrument)
            })
    }
}
