//! A day being written. It follows the reference, so that what comes next can be chosen near the
//! limits and among the open orders; what it leaves is bytes.

use reference::Lent;
use wire::{Fields, RosterSpec};

use crate::gate;
use crate::plain::{Book, Event, Line, Order, Roster, Side};
use crate::random::Random;
use crate::Day;

pub struct Draft {
    pub random: Random,
    pub book: Book,
    gate: Lent,
    day: Day,
}

impl Draft {
    /// Begins a day with a roster that is accepted.
    pub fn open(random: Random, spec: &RosterSpec) -> Draft {
        let roster = spec.bytes();
        let mut gate = gate::reference();
        assert_eq!(gate.open(&roster), 0, "a draft's roster is accepted");
        let book = Book::new(Roster::read(&roster).expect("an accepted roster can be read"));
        let day = Day {
            roster,
            events: Vec::new(),
        };
        Draft {
            random,
            book,
            gate,
            day,
        }
    }

    pub fn send(&mut self, fields: Fields) -> u8 {
        self.send_bytes(&fields.bytes())
    }

    /// Adds an event to the day and gives the reference's answer to it.
    pub fn send_bytes(&mut self, bytes: &[u8]) -> u8 {
        let answer = self.gate.event(bytes);
        if let (0, Some(event)) = (answer, Event::read(bytes)) {
            self.book.work(&event);
        }
        self.day.events.push(bytes.to_vec());
        answer
    }

    pub fn finish(self) -> Day {
        self.day
    }

    pub fn account(&mut self) -> u16 {
        self.random.between(1, i64::from(self.book.roster.accounts)) as u16
    }

    pub fn group(&mut self) -> u16 {
        self.random.between(1, i64::from(self.book.roster.groups)) as u16
    }

    pub fn contract(&mut self) -> u16 {
        self.random
            .between(1, i64::from(self.book.roster.contracts())) as u16
    }

    pub fn instrument(&mut self) -> u16 {
        self.random
            .between(1, i64::from(self.book.roster.instruments())) as u16
    }

    pub fn side(&mut self) -> Side {
        self.random.one_of(&[Side::Buy, Side::Sell])
    }

    /// One of the open orders, if there is any.
    pub fn open_order(&mut self) -> Option<Order> {
        match self.book.orders.len() {
            0 => None,
            open => Some(self.book.orders[self.random.below(open)]),
        }
    }

    /// An id that is not open: mostly a low one, so that closed orders' ids come again.
    pub fn free_id(&mut self) -> u64 {
        loop {
            let large = [
                u64::MAX,
                u64::MAX - 1,
                1 << 63,
                (1 << 63) - 1,
                1 << 32,
                65_536,
            ];
            let id = match self.random.chance(10) {
                true => self.random.one_of(&large),
                false => 1 + self.random.below(8 + 2 * self.book.orders.len()) as u64,
            };
            if self.book.order(id).is_none() {
                return id;
            }
        }
    }

    /// What each limit still leaves to an order of this side: TCI or TVI as it is; what LCI or LVI
    /// leaves; for a weight other than 0, what LCC or LVC leaves. None where a line is not set.
    pub fn rooms(&self, account: u16, instrument: u16, side: Side) -> Option<Vec<i64>> {
        let roster = &self.book.roster;
        let (group, weight) = (roster.group(instrument), roster.weight(instrument));
        let line = self
            .book
            .lines
            .get(&self.book.line_in_force(account, instrument))?;
        let group_line = self.book.lines.get(&Line::Group { account, group })?;
        let own = self.gate.instrument_position(account, instrument).ok()?;
        let all = self.gate.group_position(account, group).ok()?;
        let mut rooms = match side {
            Side::Buy => vec![line[0], line[2] - own.long],
            Side::Sell => vec![line[1], line[3] - own.short],
        };
        if weight != 0 {
            let left = match (side == Side::Buy) == (weight > 0) {
                true => group_line[0] * 10_000 - all.long,
                false => group_line[1] * 10_000 - all.short,
            };
            rooms.push(left.div_euclid(weight.abs()));
        }
        Some(rooms)
    }
}

/// A side as an event's byte.
pub fn byte(side: Side) -> u8 {
    match side {
        Side::Buy => wire::BUY,
        Side::Sell => wire::SELL,
    }
}
