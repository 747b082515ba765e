//! What an event says.

use crate::order::{Order, Side};

/// Something of the roster that an event names by its item field.
#[derive(Clone, Copy, PartialEq, Eq, Debug)]
pub enum Item {
    Instrument(u16),
    Contract(u16),
    Group(u16),
}

/// What a BLOCK blocks: an account, an instrument for all, or a group for an account.
#[derive(Clone, Copy, PartialEq, Eq, Debug)]
pub enum Blocked {
    Account { account: u16 },
    Instrument { instrument: u16 },
    Group { account: u16, group: u16 },
}

/// A NEW.
#[derive(Clone, Copy, PartialEq, Eq, Debug)]
pub struct NewOrder {
    pub side: Side,
    pub account: u16,
    pub instrument: u16,
    pub id: u64,
    pub quantity: i64,
}

impl NewOrder {
    /// The order that joins: its total is the quantity, which is in range, and filled is 0.
    pub fn order(&self) -> Order {
        Order {
            id: self.id,
            account: self.account,
            instrument: self.instrument,
            side: self.side,
            total: self.quantity as u64,
            filled: 0,
        }
    }
}

/// An event that passes question 6. Its numbers are as they came, in range or not.
#[derive(Clone, PartialEq, Eq, Debug)]
pub enum Event {
    /// The figures are four for an instrument or a contract and two for a group.
    Limit {
        account: u16,
        item: Item,
        figures: Vec<i64>,
    },
    Balance {
        account: u16,
        instrument: u16,
        balance: i64,
    },
    Block {
        blocked: Blocked,
        figure: i64,
    },
    New(NewOrder),
    Replace {
        id: u64,
        total: i64,
    },
    Cancel {
        id: u64,
    },
    Fill {
        id: u64,
        quantity: i64,
    },
}

impl Event {
    /// The account that the event names, if it names one.
    pub fn account(&self) -> Option<u16> {
        match *self {
            Event::Limit { account, .. } | Event::Balance { account, .. } => Some(account),
            Event::Block { blocked, .. } => match blocked {
                Blocked::Account { account } | Blocked::Group { account, .. } => Some(account),
                Blocked::Instrument { .. } => None,
            },
            Event::New(new) => Some(new.account),
            Event::Replace { .. } | Event::Cancel { .. } | Event::Fill { .. } => None,
        }
    }

    /// The item that the event names, if it names one.
    pub fn item(&self) -> Option<Item> {
        match *self {
            Event::Limit { item, .. } => Some(item),
            Event::Balance { instrument, .. } => Some(Item::Instrument(instrument)),
            Event::Block { blocked, .. } => match blocked {
                Blocked::Account { .. } => None,
                Blocked::Instrument { instrument } => Some(Item::Instrument(instrument)),
                Blocked::Group { group, .. } => Some(Item::Group(group)),
            },
            Event::New(new) => Some(Item::Instrument(new.instrument)),
            Event::Replace { .. } | Event::Cancel { .. } | Event::Fill { .. } => None,
        }
    }
}
