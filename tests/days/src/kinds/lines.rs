//! Limit lines moved while orders are open: lowered below positions, not set, a default under a set
//! own line.

use super::draft::{byte, Draft};
use super::shape::{self, Sizes};
use super::traffic;
use super::Kind;
use crate::plain::{Line, Order, Side};
use crate::random::Random;
use crate::Day;

pub const KIND: Kind = Kind {
    name: "lines",
    holds: "limits lowered below positions, lines not set, a default under a set own line",
    seeds: 6,
    make: day,
};

const SIZES: Sizes = Sizes {
    accounts: 2,
    groups: 2,
    contracts: 3,
    instruments: 5,
};

const WIDE: [i64; 4] = [100, 100, 1_000, 1_000];

const WIDE_GROUP: [i64; 4] = [5_000, 5_000, 0, 0];

fn day(seed: u64) -> Day {
    let mut random = Random::new(seed);
    let weights = [10_000, -5_000, 0, 15_000, -10_000];
    let spec = shape::exactly(&mut random, SIZES, &weights);
    let mut draft = Draft::open(random, &spec);
    for account in 1..=SIZES.accounts {
        for contract in 1..=SIZES.contracts {
            draft.send(wire::limit(2, account, contract, WIDE));
        }
        for group in 1..=SIZES.groups {
            draft.send(wire::limit(3, account, group, WIDE_GROUP));
        }
    }
    for _ in 0..8 {
        let (account, instrument, side) = (draft.account(), draft.instrument(), draft.side());
        if let Some(order) = enter(&mut draft, account, instrument, side) {
            lower(&mut draft, order);
            unset(&mut draft, order);
            default_under_own(&mut draft, order);
        }
        for _ in 0..10 {
            let next = traffic::next(&mut draft);
            draft.send(next);
        }
    }
    draft.finish()
}

/// Enters an order of 20 under wide lines, part filled.
fn enter(draft: &mut Draft, account: u16, instrument: u16, side: Side) -> Option<Order> {
    let roster = draft.book.roster.clone();
    draft.send(wire::block(1, account, 0, 0));
    draft.send(wire::block(2, 0, instrument, 0));
    draft.send(wire::block(3, account, roster.group(instrument), 0));
    draft.send(wire::limit(1, account, instrument, WIDE));
    draft.send(wire::limit(2, account, roster.contract(instrument), WIDE));
    draft.send(wire::limit(
        3,
        account,
        roster.group(instrument),
        WIDE_GROUP,
    ));
    let id = draft.free_id();
    draft.send(wire::new(byte(side), account, instrument, id, 20));
    draft.send(wire::fill(id, 3));
    draft.book.order(id).copied()
}

/// Lowers each limit below what is open, and sends orders of both sides and replaces.
fn lower(draft: &mut Draft, order: Order) {
    let Order {
        account,
        instrument,
        ..
    } = order;
    let group = draft.book.roster.group(instrument);
    for line in [
        [100, 100, 1, 1],
        [5, 5, 1_000, 1_000],
        [100, 100, 0, 1_000],
        [100, 100, 1_000, 0],
    ] {
        draft.send(wire::limit(1, account, instrument, line));
        orders_and_replaces(draft, order);
    }
    draft.send(wire::limit(1, account, instrument, WIDE));
    for line in [[1, 1, 0, 0], [0, 5_000, 0, 0], [5_000, 0, 0, 0]] {
        draft.send(wire::limit(3, account, group, line));
        orders_and_replaces(draft, order);
    }
    draft.send(wire::limit(3, account, group, WIDE_GROUP));
}

/// Takes away the own line, then the default as well, then the group's line.
fn unset(draft: &mut Draft, order: Order) {
    let Order {
        account,
        instrument,
        ..
    } = order;
    let (contract, group) = (
        draft.book.roster.contract(instrument),
        draft.book.roster.group(instrument),
    );
    draft.send(wire::limit(1, account, instrument, [-1; 4]));
    orders_and_replaces(draft, order);
    draft.send(wire::limit(2, account, contract, [-1; 4]));
    orders_and_replaces(draft, order);
    draft.send(wire::limit(2, account, contract, WIDE));
    draft.send(wire::limit(3, account, group, [-1, -1, 0, 0]));
    orders_and_replaces(draft, order);
    draft.send(wire::limit(3, account, group, WIDE_GROUP));
    orders_and_replaces(draft, order);
}

/// Moves the default under a set own line, to where it would refuse and to where it would accept.
fn default_under_own(draft: &mut Draft, order: Order) {
    let Order {
        account,
        instrument,
        ..
    } = order;
    let contract = draft.book.roster.contract(instrument);
    draft.send(wire::limit(1, account, instrument, WIDE));
    draft.send(wire::limit(2, account, contract, [0; 4]));
    orders_and_replaces(draft, order);
    draft.send(wire::limit(1, account, instrument, [0; 4]));
    draft.send(wire::limit(2, account, contract, WIDE));
    orders_and_replaces(draft, order);
    assert!(draft.book.lines.contains_key(&Line::Own {
        account,
        instrument
    }));
}

/// Orders of both sides, and the open order replaced up, to the same total and down.
fn orders_and_replaces(draft: &mut Draft, order: Order) {
    for side in [Side::Buy, Side::Sell] {
        let id = draft.free_id();
        draft.send(wire::new(
            byte(side),
            order.account,
            order.instrument,
            id,
            6,
        ));
        draft.send(wire::cancel(id));
    }
    for total in [21, 21, 20, 20] {
        draft.send(wire::replace(order.id, total));
    }
}
