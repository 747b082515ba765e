//! A full list of open orders: 256, then 18, then a place given up and taken again.

use super::draft::{byte, Draft};
use super::shape::{self, Sizes};
use super::Kind;
use crate::plain::Side;
use crate::random::Random;
use crate::Day;

pub const KIND: Kind = Kind {
    name: "full list",
    holds: "256 open orders, then 18, then a place given up and taken again",
    seeds: 3,
    make: day,
};

const SIZES: Sizes = Sizes {
    accounts: 3,
    groups: 2,
    contracts: 3,
    instruments: 5,
};

const LARGEST: i64 = 1_000_000_000;

/// How many orders may be open.
const MOST_OPEN: usize = 256;

fn day(seed: u64) -> Day {
    let mut random = Random::new(seed);
    let spec = shape::exactly(&mut random, SIZES, &[10_000, -5_000, 0]);
    let mut draft = Draft::open(random, &spec);
    for account in 1..=SIZES.accounts {
        widest_lines(&mut draft, account);
    }
    fill_up(&mut draft, 1);
    new_of_each_sort(&mut draft);
    without_new_place(&mut draft);
    for _ in 0..6 {
        give_up_a_place(&mut draft);
        new_of_each_sort(&mut draft);
    }
    draft.finish()
}

/// The widest line for every contract and group of an account.
pub fn widest_lines(draft: &mut Draft, account: u16) {
    for contract in 1..=draft.book.roster.contracts() {
        draft.send(wire::limit(2, account, contract, [LARGEST; 4]));
    }
    for group in 1..=draft.book.roster.groups {
        draft.send(wire::limit(3, account, group, [LARGEST, LARGEST, 0, 0]));
    }
}

/// Sends orders of accounts from `first` on, as many as the list has places.
pub fn fill_up(draft: &mut Draft, first: u16) {
    for _ in draft.book.orders.len()..MOST_OPEN {
        let account = draft
            .random
            .between(i64::from(first), i64::from(draft.book.roster.accounts));
        let (instrument, side) = (draft.instrument(), draft.side());
        let quantity = draft.random.between(1, 9);
        let id = match draft.random.chance(50) {
            true => draft.free_id(),
            false => draft.random.number() | 1 << 40,
        };
        draft.send(wire::new(
            byte(side),
            account as u16,
            instrument,
            id,
            quantity,
        ));
    }
}

/// A NEW for every side and instrument, and one with an open id.
fn new_of_each_sort(draft: &mut Draft) {
    for side in [Side::Buy, Side::Sell] {
        for instrument in 1..=SIZES.instruments {
            let id = draft.free_id();
            draft.send(wire::new(byte(side), 1, instrument, id, 1));
        }
    }
    let open = draft.book.orders[0].id;
    draft.send(wire::new(wire::BUY, 1, 1, open, 1));
}

/// Events that a full list does not stand in the way of, and that leave it full.
fn without_new_place(draft: &mut Draft) {
    for _ in 0..20 {
        if let Some(order) = draft.open_order() {
            draft.send(wire::replace(order.id, order.total + 2));
            draft.send(wire::replace(order.id, order.total + 1));
            draft.send(wire::fill(order.id, 1));
        }
    }
}

/// Closes an order: the first, the last or any, by a cancel or by a fill of what remains.
fn give_up_a_place(draft: &mut Draft) {
    let ids = || draft.book.orders.iter().map(|order| order.id);
    let (lowest, highest) = (ids().min(), ids().max());
    let any = draft.open_order().map(|order| order.id);
    let id = draft.random.one_of(&[lowest, highest, any]).unwrap_or(1);
    let remaining = draft.book.order(id).map_or(1, |order| order.remaining());
    match draft.random.chance(50) {
        true => draft.send(wire::cancel(id)),
        false => draft.send(wire::fill(id, remaining)),
    };
}
