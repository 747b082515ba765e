//! Small days, whose fillings can all be enumerated: few accounts and instruments, at most four
//! open orders with totals from 1 to 4, and limits that two or three orders reach.

use wire::Fields;

use super::draft::{byte, Draft};
use super::shape::{self, Sizes};
use super::traffic;
use super::Kind;
use crate::plain::{Line, Order};
use crate::random::Random;
use crate::Day;

pub const KIND: Kind = Kind {
    name: "small",
    holds: "at most four open orders with totals up to 4, so that all fillings can be enumerated",
    seeds: 100,
    make: day,
};

const SIZES: Sizes = Sizes {
    accounts: 2,
    groups: 2,
    contracts: 3,
    instruments: 4,
};

const WEIGHTS: [i32; 8] = [10_000, -5_000, 0, -2, 3, 5_000, -10_000, -15_000];

const EVENTS: usize = 40;

const MOST_OPEN: usize = 4;

const LARGEST_TOTAL: i64 = 4;

fn day(seed: u64) -> Day {
    let mut random = Random::new(seed);
    let spec = shape::at_most(&mut random, SIZES, &WEIGHTS);
    let mut draft = Draft::open(random, &spec);
    prepare(&mut draft);
    for _ in 0..EVENTS {
        let next = next(&mut draft);
        draft.send(next);
    }
    draft.finish()
}

fn prepare(draft: &mut Draft) {
    let roster = draft.book.roster.clone();
    for account in 1..=roster.accounts {
        for contract in 1..=roster.contracts() {
            let figures = line(draft);
            draft.send(wire::limit(2, account, contract, figures));
        }
        for group in 1..=roster.groups {
            let figures = group_line(draft);
            draft.send(wire::limit(3, account, group, figures));
        }
        for instrument in 1..=roster.instruments() {
            if draft.random.chance(25) {
                let figures = line(draft);
                draft.send(wire::limit(1, account, instrument, figures));
            }
            if draft.random.chance(60) {
                let s = draft.random.between(-3, 3);
                draft.send(wire::balance(account, instrument, s));
            }
        }
    }
}

/// Sizes that seldom refuse, and limits that two or three orders reach.
fn line(draft: &mut Draft) -> [i64; 4] {
    let mut size = || match draft.random.chance(10) {
        true => draft.random.between(0, 3),
        false => LARGEST_TOTAL,
    };
    let sizes = [size(), size()];
    let mut figure = || draft.random.between(0, 9);
    [sizes[0], sizes[1], figure(), figure()]
}

fn group_line(draft: &mut Draft) -> [i64; 4] {
    let mut figure = || draft.random.one_of(&[0, 1, 2, 3, 4, 6, 8, 10]);
    [figure(), figure(), 0, 0]
}

fn next(draft: &mut Draft) -> Fields {
    let full = draft.book.orders.len() >= MOST_OPEN;
    let open = draft.open_order();
    match (draft.random.below(100), open) {
        (0..=54, _) if !full => new(draft),
        (0..=29, Some(order)) | (55..=67, Some(order)) => fill(draft, order),
        (30..=47, Some(order)) | (68..=80, Some(order)) => replace(draft, order),
        (48..=54, Some(order)) | (81..=83, Some(order)) => wire::cancel(order.id),
        (84..=91, _) => limit(draft),
        (92..=94, _) => {
            let s = draft.random.between(-4, 4);
            wire::balance(draft.account(), draft.instrument(), s)
        }
        (95..=97, _) => traffic::block(draft),
        _ => junk(draft),
    }
}

fn new(draft: &mut Draft) -> Fields {
    let (account, instrument, side) = (draft.account(), draft.instrument(), draft.side());
    let quantity = draft.random.between(1, LARGEST_TOTAL);
    let id = match (draft.random.chance(4), draft.open_order()) {
        (true, Some(order)) => order.id,
        _ => draft.free_id(),
    };
    wire::new(byte(side), account, instrument, id, quantity)
}

fn fill(draft: &mut Draft, order: Order) -> Fields {
    let quantity = draft.random.between(1, order.remaining());
    wire::fill(order.id, quantity)
}

fn replace(draft: &mut Draft, order: Order) -> Fields {
    let total = draft.random.between(order.filled, LARGEST_TOTAL + 1);
    wire::replace(order.id, total)
}

/// A LIMIT; at times one that sets no line in force: a default under a set own line, or −1 for an
/// own line that is not set.
fn limit(draft: &mut Draft) -> Fields {
    let (account, instrument) = (draft.account(), draft.instrument());
    let contract = draft.book.roster.contract(instrument);
    let own_set = draft.book.lines.contains_key(&Line::Own {
        account,
        instrument,
    });
    let figures = line(draft);
    match (draft.random.below(4), own_set) {
        (0, true) => wire::limit(2, account, contract, figures),
        (0, false) => wire::limit(1, account, instrument, [-1; 4]),
        (1, _) => wire::limit(3, account, draft.group(), group_line(draft)),
        (2, _) if draft.random.chance(30) => wire::limit(1, account, instrument, [-1; 4]),
        (2, _) => wire::limit(1, account, instrument, figures),
        _ => wire::limit(2, account, contract, figures),
    }
}

/// An event of no meaning: unknown ids, accounts and items, quantities out of range.
fn junk(draft: &mut Draft) -> Fields {
    match draft.random.below(5) {
        0 => wire::cancel(99),
        1 => wire::fill(99, 1),
        2 => wire::new(1, draft.book.roster.accounts + 1, 1, 7, 1),
        3 => wire::replace(1, 0),
        _ => Fields {
            zero: 1,
            ..new(draft)
        },
    }
}
