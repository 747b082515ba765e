//! What sort of event some bytes are, given the plain book before them.

use std::cmp::Ordering;

use crate::plain::{Book, Order, Side};

/// The sign of an instrument's weight K.
#[derive(Clone, Copy, PartialEq, Eq, PartialOrd, Ord, Debug)]
pub enum Sign {
    Positive,
    Negative,
    Zero,
}

/// A FILL's quantity beside what remains.
#[derive(Clone, Copy, PartialEq, Eq, PartialOrd, Ord, Debug)]
pub enum Quantity {
    /// At most 0.
    NotPositive,
    /// Less than what remains.
    Part,
    /// What remains.
    Whole,
    /// More than what remains.
    Beyond,
}

/// The sort of an event: its kind, level, side and direction, as its bytes say them, whatever else
/// is wrong with it.
#[derive(Clone, Copy, PartialEq, Eq, PartialOrd, Ord, Debug)]
pub enum Class {
    /// Not 48 bytes, no kind from 1 to 7, a LIMIT or BLOCK of no listed level, or a NEW of no side.
    Other,
    /// By level.
    Limit(u8),
    Balance,
    /// By level.
    Block(u8),
    New(Side, Sign),
    /// A NEW for an instrument that is not on the roster.
    NewOffRoster(Side),
    /// A REPLACE whose total rises.
    Raise(Side, Sign),
    /// A REPLACE to the same total.
    Same,
    /// A REPLACE to a lower total that is above what is filled.
    Lower,
    /// A REPLACE to at most what is filled, and at least 1.
    LowerToFilled,
    /// A REPLACE of an open order to at most 0.
    ReplaceNotPositive,
    /// A REPLACE of an id that is not open.
    ReplaceNotOpen,
    Cancel,
    /// A CANCEL of an id that is not open.
    CancelNotOpen,
    Fill(Side, Quantity),
    /// A FILL of an id that is not open.
    FillNotOpen,
}

impl Class {
    /// The class of an event that comes to this book.
    pub fn of(book: &Book, bytes: &[u8]) -> Class {
        let Ok(bytes) = <[u8; 48]>::try_from(bytes) else {
            return Class::Other;
        };
        let id = u64::from_le_bytes(bytes[8..16].try_into().expect("eight bytes"));
        let figure = i64::from_le_bytes(bytes[16..24].try_into().expect("eight bytes"));
        let order = book.order(id);
        match (bytes[0], bytes[6]) {
            (1, level @ 1..=3) => Class::Limit(level),
            (2, _) => Class::Balance,
            (3, level @ 1..=3) => Class::Block(level),
            (4, _) => new(book, &bytes),
            (5, _) => order.map_or(Class::ReplaceNotOpen, |order| replace(book, order, figure)),
            (6, _) => order.map_or(Class::CancelNotOpen, |_| Class::Cancel),
            (7, _) => order.map_or(Class::FillNotOpen, |order| fill(order, figure)),
            _ => Class::Other,
        }
    }
}

fn new(book: &Book, bytes: &[u8; 48]) -> Class {
    let side = match bytes[1] {
        1 => Side::Buy,
        2 => Side::Sell,
        _ => return Class::Other,
    };
    let instrument = u16::from_le_bytes([bytes[4], bytes[5]]);
    match book.roster.has_instrument(instrument) {
        true => Class::New(side, sign(book, instrument)),
        false => Class::NewOffRoster(side),
    }
}

fn replace(book: &Book, order: &Order, total: i64) -> Class {
    if total > order.total {
        Class::Raise(order.side, sign(book, order.instrument))
    } else if total == order.total {
        Class::Same
    } else if total > order.filled {
        Class::Lower
    } else if total > 0 {
        Class::LowerToFilled
    } else {
        Class::ReplaceNotPositive
    }
}

fn fill(order: &Order, quantity: i64) -> Class {
    let quantity = match quantity.cmp(&order.remaining()) {
        _ if quantity <= 0 => Quantity::NotPositive,
        Ordering::Less => Quantity::Part,
        Ordering::Equal => Quantity::Whole,
        Ordering::Greater => Quantity::Beyond,
    };
    Class::Fill(order.side, quantity)
}

fn sign(book: &Book, instrument: u16) -> Sign {
    match book.roster.weight(instrument) {
        0 => Sign::Zero,
        weight if weight > 0 => Sign::Positive,
        _ => Sign::Negative,
    }
}
