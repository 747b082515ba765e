//! Positions, their limits, and what an order's fills move.

use crate::plain::{Balances, Book, Event, Line, Order, Roster};

/// What has positions: an account's instrument or an account's group.
#[derive(Clone, Copy, PartialEq, Eq, PartialOrd, Ord, Debug)]
pub enum Place {
    Instrument { account: u16, instrument: u16 },
    Group { account: u16, group: u16 },
}

/// The side of a position.
#[derive(Clone, Copy, PartialEq, Eq, PartialOrd, Ord, Debug)]
pub enum Way {
    Long,
    Short,
}

impl Way {
    pub fn other(self) -> Way {
        match self {
            Way::Long => Way::Short,
            Way::Short => Way::Long,
        }
    }
}

/// The long or the short position of a place. Each has one limit.
#[derive(Clone, Copy, PartialEq, Eq, PartialOrd, Ord, Debug)]
pub struct Position {
    pub place: Place,
    pub way: Way,
}

impl Position {
    /// Its figure. An instrument's long position is its balance and a group's is the sum of K times
    /// the balances; the short position is the long one negated.
    pub fn figure(&self, roster: &Roster, balances: &Balances) -> i64 {
        let balance =
            |account, instrument| balances.get(&(account, instrument)).copied().unwrap_or(0);
        let long = match self.place {
            Place::Instrument {
                account,
                instrument,
            } => balance(account, instrument),
            Place::Group { account, group } => (1..=roster.instruments())
                .filter(|&instrument| roster.group(instrument) == group)
                .map(|instrument| roster.weight(instrument) * balance(account, instrument))
                .sum(),
        };
        match self.way {
            Way::Long => long,
            Way::Short => -long,
        }
    }

    /// Its limit, in the unit of its figure: contracts, or ten-thousandths for a group. None if the
    /// line is not set.
    pub fn limit(&self, book: &Book) -> Option<i64> {
        let figures = book.lines.get(&self.line(book))?;
        Some(match (self.place, self.way) {
            (Place::Instrument { .. }, Way::Long) => figures[2],
            (Place::Instrument { .. }, Way::Short) => figures[3],
            (Place::Group { .. }, Way::Long) => figures[0] * 10_000,
            (Place::Group { .. }, Way::Short) => figures[1] * 10_000,
        })
    }

    /// The question that asks about this limit.
    pub fn question(&self) -> u8 {
        match (self.place, self.way) {
            (Place::Instrument { .. }, Way::Long) => 21,
            (Place::Instrument { .. }, Way::Short) => 22,
            (Place::Group { .. }, Way::Long) => 23,
            (Place::Group { .. }, Way::Short) => 24,
        }
    }

    /// The name of the line whose limit applies: an instrument's line in force, a group's line.
    fn line(&self, book: &Book) -> Line {
        match self.place {
            Place::Instrument {
                account,
                instrument,
            } => book.line_in_force(account, instrument),
            Place::Group { account, group } => Line::Group { account, group },
        }
    }

    /// Whether this accepted event sets again the limit that applies: it is a LIMIT on the line
    /// that applied before it or applies after it.
    pub fn is_set_again(&self, event: &Event, before: &Book, after: &Book) -> bool {
        match *event {
            Event::Limit { line, .. } => line == self.line(before) || line == self.line(after),
            _ => false,
        }
    }
}

/// The positions that the order's own fills move: those that rise when one of it is filled.
pub fn moved_by(roster: &Roster, order: &Order) -> Vec<Position> {
    let Order {
        account,
        instrument,
        ..
    } = *order;
    let group = roster.group(instrument);
    let unfilled = Balances::new();
    let filled = Balances::from([((account, instrument), order.moved(1))]);
    let mut moved = Vec::new();
    for place in [
        Place::Instrument {
            account,
            instrument,
        },
        Place::Group { account, group },
    ] {
        for way in [Way::Long, Way::Short] {
            let position = Position { place, way };
            if position.figure(roster, &filled) > position.figure(roster, &unfilled) {
                moved.push(position);
            }
        }
    }
    moved
}

#[cfg(test)]
mod tests {
    use super::*;
    use crate::plain::Side;

    /// Two accounts, two groups; instruments 1 and 2 of contract 1 in group 1, 3 of contract 2 in
    /// group 2.
    fn book() -> Book {
        let spec = wire::RosterSpec {
            accounts: 2,
            groups: 2,
            groups_of: vec![1, 2],
            instruments: vec![(1, 10_000), (1, -5_000), (2, 0)],
        };
        Book::new(Roster::read(&spec.bytes()).expect("a roster of exact length"))
    }

    fn limit(level: u8, account: u16, item: u16, figures: [i64; 4]) -> Event {
        Event::read(&wire::limit(level, account, item, figures).bytes()).expect("a LIMIT")
    }

    /// Whether the event, worked in the book, sets again the limit of the position.
    fn sets_again(book: &mut Book, position: Position, event: Event) -> bool {
        let before = book.clone();
        book.work(&event);
        position.is_set_again(&event, &before, book)
    }

    /// The long position of instrument 1 of account 1.
    const LONG: Position = Position {
        place: Place::Instrument {
            account: 1,
            instrument: 1,
        },
        way: Way::Long,
    };

    #[test]
    fn an_instruments_limit_is_set_again_on_the_line_in_force_before_or_after() {
        let mut book = book();
        let mut sets = |event| sets_again(&mut book, LONG, event);
        assert!(sets(limit(2, 1, 1, [5; 4])), "the default comes in force");
        assert!(sets(limit(2, 1, 1, [5; 4])), "to the same figures");
        assert!(
            !sets(limit(1, 1, 1, [-1; 4])),
            "an own line that is not set"
        );
        assert!(sets(limit(1, 1, 1, [6; 4])), "the own line comes in force");
        assert!(
            !sets(limit(2, 1, 1, [7; 4])),
            "a default under a set own line"
        );
        assert!(sets(limit(1, 1, 1, [-1; 4])), "the own line was in force");
        assert_eq!(LONG.limit(&book), Some(7));
    }

    #[test]
    fn an_instruments_limit_is_not_set_again_on_other_lines() {
        let mut book = book();
        book.work(&limit(2, 1, 1, [5; 4]));
        let mut sets = |event| sets_again(&mut book, LONG, event);
        assert!(!sets(limit(1, 1, 2, [6; 4])), "another instrument's");
        assert!(!sets(limit(2, 2, 1, [6; 4])), "another account's");
        assert!(!sets(limit(2, 1, 2, [6; 4])), "another contract's");
        assert!(!sets(limit(3, 1, 1, [6, 6, 0, 0])), "the group's");
        assert_eq!(LONG.limit(&book), Some(5));
    }

    #[test]
    fn a_groups_limit_is_set_again_on_its_line_alone() {
        let place = Place::Group {
            account: 1,
            group: 1,
        };
        let short = Position {
            place,
            way: Way::Short,
        };
        let mut book = book();
        assert!(sets_again(&mut book, short, limit(3, 1, 1, [5, 4, 0, 0])));
        assert_eq!(short.limit(&book), Some(40_000));
        assert!(!sets_again(&mut book, short, limit(3, 1, 2, [5, 5, 0, 0])));
        assert!(!sets_again(&mut book, short, limit(3, 2, 1, [5, 5, 0, 0])));
        assert!(!sets_again(&mut book, short, limit(1, 1, 1, [5; 4])));
        assert!(sets_again(&mut book, short, limit(3, 1, 1, [-1, -1, 0, 0])));
        assert_eq!(short.limit(&book), None);
    }

    #[test]
    fn fills_move_by_side_and_sign_of_weight() {
        let book = book();
        let moved = |instrument: u16, side: Side| {
            let order = Order {
                id: 1,
                account: 1,
                instrument,
                side,
                total: 2,
                filled: 0,
            };
            let moved = moved_by(&book.roster, &order);
            moved.iter().map(Position::question).collect::<Vec<u8>>()
        };
        assert_eq!(moved(1, Side::Buy), [21, 23]);
        assert_eq!(moved(1, Side::Sell), [22, 24]);
        assert_eq!(moved(2, Side::Buy), [21, 24]);
        assert_eq!(moved(2, Side::Sell), [22, 23]);
        assert_eq!(moved(3, Side::Buy), [21]);
        assert_eq!(moved(3, Side::Sell), [22]);
    }
}
