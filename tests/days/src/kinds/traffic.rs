//! Sound traffic: orders of every side and weight, part fills, replaces up, down and to the same
//! total, cancels and reused ids, most of it near the limits.

use wire::Fields;

use super::draft::{byte, Draft};
use super::shape::{self, Sizes};
use super::Kind;
use crate::plain::{Order, Side};
use crate::random::Random;
use crate::Day;

pub const KIND: Kind = Kind {
    name: "traffic",
    holds:
        "sound traffic: every side and sign of weight, part fills, replaces up, down and to the \
            same total, cancels, reused ids, quantities near the limits",
    seeds: 60,
    make: day,
};

const SIZES: Sizes = Sizes {
    accounts: 3,
    groups: 4,
    contracts: 6,
    instruments: 10,
};

const EVENTS: usize = 150;

fn day(seed: u64) -> Day {
    let mut random = Random::new(seed);
    let spec = shape::at_most(&mut random, SIZES, &shape::WEIGHTS);
    let mut draft = Draft::open(random, &spec);
    prepare(&mut draft, 200);
    for _ in 0..EVENTS {
        let next = next(&mut draft);
        draft.send(next);
    }
    draft.finish()
}

/// Sets most lines and some balances, with figures up to `largest`.
pub fn prepare(draft: &mut Draft, largest: i64) {
    let roster = draft.book.roster.clone();
    for account in 1..=roster.accounts {
        for instrument in 1..=roster.instruments() {
            if draft.random.chance(60) {
                let s = draft.random.between(-largest / 2, largest / 2);
                draft.send(wire::balance(account, instrument, s));
            }
            if draft.random.chance(30) {
                let figures = line(draft, largest);
                draft.send(wire::limit(1, account, instrument, figures));
            }
        }
        for contract in 1..=roster.contracts() {
            let figures = line(draft, largest);
            draft.send(wire::limit(2, account, contract, figures));
        }
        for group in 1..=roster.groups {
            let figures = group_line(draft, largest);
            draft.send(wire::limit(3, account, group, figures));
        }
    }
}

/// Four figures of an instrument's or a contract's line; order sizes are seldom the tightest.
pub fn line(draft: &mut Draft, largest: i64) -> [i64; 4] {
    let size = match draft.random.chance(20) {
        true => draft.random.between(0, largest / 4),
        false => largest,
    };
    let mut figure = || draft.random.between(0, largest);
    [size, size, figure(), figure()]
}

/// The two figures of a group's line, and two zeros.
pub fn group_line(draft: &mut Draft, largest: i64) -> [i64; 4] {
    let widest = draft.random.one_of(&[largest / 4, largest, 100 * largest]);
    let mut figure = || draft.random.between(0, widest);
    [figure(), figure(), 0, 0]
}

/// The next event of sound traffic, not yet sent.
pub fn next(draft: &mut Draft) -> Fields {
    match draft.random.below(100) {
        0..=39 => new(draft),
        40..=59 => with_order(draft, fill),
        60..=77 => with_order(draft, replace),
        78..=87 => with_order(draft, |_, order| wire::cancel(order.id)),
        88..=93 => limit(draft),
        94..=96 => balance(draft),
        _ => block(draft),
    }
}

fn with_order(draft: &mut Draft, event: fn(&mut Draft, Order) -> Fields) -> Fields {
    match draft.open_order() {
        Some(order) => event(draft, order),
        None => new(draft),
    }
}

/// A NEW, mostly of a quantity at, just below or just past what a limit leaves.
pub fn new(draft: &mut Draft) -> Fields {
    let (account, instrument, side) = (draft.account(), draft.instrument(), draft.side());
    let quantity = quantity(draft, account, instrument, side);
    let id = match (draft.random.chance(3), draft.open_order()) {
        (true, Some(order)) => order.id,
        _ => draft.free_id(),
    };
    wire::new(byte(side), account, instrument, id, quantity)
}

fn quantity(draft: &mut Draft, account: u16, instrument: u16, side: Side) -> i64 {
    let rooms = draft
        .rooms(account, instrument, side)
        .unwrap_or_else(|| vec![10]);
    let tightest = rooms.iter().copied().min().unwrap_or(10);
    let room = draft.random.one_of(&rooms);
    let near = draft.random.between(-1, 1);
    let quantity = match draft.random.below(4) {
        0 => room + near,
        1 => tightest + near,
        2 => draft.random.between(1, tightest.max(1)),
        _ => draft.random.between(1, 10),
    };
    quantity.clamp(1, 1_000_000)
}

/// A FILL: part of what remains, all of it, or seldom one more.
fn fill(draft: &mut Draft, order: Order) -> Fields {
    let remaining = order.remaining();
    let quantity = match draft.random.below(10) {
        0 => remaining + 1,
        1..=3 => remaining,
        4..=5 => 1,
        _ => draft.random.between(1, remaining),
    };
    wire::fill(order.id, quantity)
}

/// A REPLACE: up near what a limit leaves, down near what is filled, or to the same total.
fn replace(draft: &mut Draft, order: Order) -> Fields {
    let rooms = draft.rooms(order.account, order.instrument, order.side);
    let rooms = rooms.unwrap_or_else(|| vec![10, 10]);
    let near = draft.random.between(-1, 1);
    let total = match draft.random.below(8) {
        0 => order.total,
        1 => order.filled + near,
        2 => draft.random.between(order.filled + 1, order.total),
        3 => rooms[0] + near,
        4 => order.total + rooms[1..].iter().copied().min().unwrap_or(1) + near,
        5 => order.total + draft.random.one_of(&rooms[1..]) + near,
        _ => order.total + draft.random.between(1, 5),
    };
    wire::replace(order.id, total)
}

/// A LIMIT at some level: lower or higher than before, and seldom not set.
pub fn limit(draft: &mut Draft) -> Fields {
    let account = draft.account();
    let (level, unset) = (draft.random.between(1, 3) as u8, draft.random.chance(20));
    let largest = draft.random.one_of(&[0, 10, 200, 1_000]);
    let (item, figures) = match level {
        1 => (draft.instrument(), line(draft, largest)),
        2 => (draft.contract(), line(draft, largest)),
        _ => (draft.group(), group_line(draft, largest)),
    };
    match (unset, level) {
        (false, _) => wire::limit(level, account, item, figures),
        (true, 3) => wire::limit(level, account, item, [-1, -1, 0, 0]),
        (true, _) => wire::limit(level, account, item, [-1; 4]),
    }
}

pub fn balance(draft: &mut Draft) -> Fields {
    let s = draft.random.between(-100, 100);
    wire::balance(draft.account(), draft.instrument(), s)
}

/// A BLOCK at some level, lifted more often than set.
pub fn block(draft: &mut Draft) -> Fields {
    let on = i64::from(draft.random.chance(30));
    match draft.random.between(1, 3) {
        1 => wire::block(1, draft.account(), 0, on),
        2 => wire::block(2, 0, draft.instrument(), on),
        _ => wire::block(3, draft.account(), draft.group(), on),
    }
}
