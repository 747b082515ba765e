//! Positions: what the balances and the open orders give, whatever the limits.

use crate::book::Book;
use crate::order::Side;
use crate::roster::Roster;

/// S: the signed balance.
pub fn balance(book: &Book, account: u16, instrument: u16) -> i128 {
    i128::from(book.balances[account][instrument])
}

/// B: the sum of what remains of the open buys.
pub fn open_buys(book: &Book, account: u16, instrument: u16) -> i128 {
    remaining(book, account, instrument, Side::Buy)
}

/// V: the sum of what remains of the open sells.
pub fn open_sells(book: &Book, account: u16, instrument: u16) -> i128 {
    remaining(book, account, instrument, Side::Sell)
}

fn remaining(book: &Book, account: u16, instrument: u16, side: Side) -> i128 {
    book.orders
        .iter()
        .filter(|order| order.account == account && order.instrument == instrument)
        .filter(|order| order.side == side)
        .map(|order| i128::from(order.remaining()))
        .sum()
}

/// Potential long PCI = S + B.
pub fn potential_long(book: &Book, account: u16, instrument: u16) -> i128 {
    balance(book, account, instrument) + open_buys(book, account, instrument)
}

/// Potential short PVI = −S + V.
pub fn potential_short(book: &Book, account: u16, instrument: u16) -> i128 {
    -balance(book, account, instrument) + open_sells(book, account, instrument)
}

/// Group long PCC, in ten-thousandths: the sum, over the group's instruments with weight K, of
/// K times (S + B) if K ≥ 0, or −K times (V − S) if K < 0.
pub fn group_long(roster: &Roster, book: &Book, account: u16, group: u16) -> i128 {
    let part = |instrument| {
        let k = i128::from(roster.weight_of_instrument(instrument));
        if k >= 0 {
            k * potential_long(book, account, instrument)
        } else {
            -k * potential_short(book, account, instrument)
        }
    };
    roster.instruments_of_group(group).map(part).sum()
}

/// Group short PVC, in ten-thousandths: the sum of K times (V − S) if K ≥ 0, or −K times (S + B)
/// if K < 0.
pub fn group_short(roster: &Roster, book: &Book, account: u16, group: u16) -> i128 {
    let part = |instrument| {
        let k = i128::from(roster.weight_of_instrument(instrument));
        if k >= 0 {
            k * potential_short(book, account, instrument)
        } else {
            -k * potential_long(book, account, instrument)
        }
    };
    roster.instruments_of_group(group).map(part).sum()
}

/// A buy moves its group long if K > 0 and short if K < 0, a sell the opposite; K = 0 moves none.
pub fn moves_group_long(side: Side, weight: i64) -> bool {
    match side {
        Side::Buy => weight > 0,
        Side::Sell => weight < 0,
    }
}

/// The opposite of `moves_group_long`, but for K = 0, which moves no group.
pub fn moves_group_short(side: Side, weight: i64) -> bool {
    match side {
        Side::Buy => weight < 0,
        Side::Sell => weight > 0,
    }
}
