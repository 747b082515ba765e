//! The largest and the smallest roster, and the largest figures.

use wire::RosterSpec;

use super::draft::{byte, Draft};
use super::full;
use super::shape;
use super::traffic;
use super::Kind;
use crate::random::Random;
use crate::Day;

pub const LARGEST_ROSTER: Kind = Kind {
    name: "largest roster",
    holds: "16 accounts, 4 groups, 8 contracts, 32 instruments",
    seeds: 2,
    make: largest,
};

pub const SMALLEST_ROSTER: Kind = Kind {
    name: "smallest roster",
    holds: "one account, group, contract and instrument",
    seeds: 10,
    make: smallest,
};

pub const LARGEST_FIGURES: Kind = Kind {
    name: "largest figures",
    holds: "the largest weights, balances, limits and quantities, in one group",
    seeds: 4,
    make: figures,
};

const LARGEST: i64 = 1_000_000_000;

const LARGEST_WEIGHT: i32 = 1_000_000;

/// Sound traffic on 16 accounts, 4 groups, 8 contracts and 32 instruments, and events that name the
/// last and the one past the last of each.
fn largest(seed: u64) -> Day {
    let mut random = Random::new(seed);
    let spec = shape::exactly(&mut random, shape::LARGEST, &shape::WEIGHTS);
    let mut draft = Draft::open(random, &spec);
    for account in [1, 8, 15, 16] {
        full::widest_lines(&mut draft, account);
    }
    at_the_ends(&mut draft);
    for _ in 0..150 {
        let next = traffic::next(&mut draft);
        draft.send(next);
        let order = traffic::new(&mut draft);
        let account = draft.random.one_of(&[1, 8, 15, 16]);
        draft.send(wire::Fields { account, ..order });
    }
    draft.finish()
}

/// Sound traffic on one account, group, contract and instrument.
fn smallest(seed: u64) -> Day {
    let mut random = Random::new(seed);
    let spec = shape::exactly(&mut random, shape::SMALLEST, &shape::WEIGHTS);
    let mut draft = Draft::open(random, &spec);
    traffic::prepare(&mut draft, 40);
    at_the_ends(&mut draft);
    for _ in 0..100 {
        let next = traffic::next(&mut draft);
        draft.send(next);
    }
    draft.finish()
}

/// Every kind of event that names an account or an item, at the last of each and one past it.
fn at_the_ends(draft: &mut Draft) {
    let roster = draft.book.roster.clone();
    for past in [0, 1] {
        let last = roster.accounts + past;
        let instrument = roster.instruments() + past;
        draft.send(wire::limit(
            1,
            last,
            roster.instruments(),
            [100, 100, 90, 80],
        ));
        draft.send(wire::limit(
            1,
            roster.accounts,
            instrument,
            [100, 100, 90, 80],
        ));
        draft.send(wire::limit(
            2,
            roster.accounts,
            roster.contracts() + past,
            [70; 4],
        ));
        draft.send(wire::limit(
            3,
            roster.accounts,
            roster.groups + past,
            [60, 50, 0, 0],
        ));
        draft.send(wire::balance(roster.accounts, instrument, -9));
        draft.send(wire::balance(last, roster.instruments(), -8));
        draft.send(wire::block(1, last, 0, 0));
        draft.send(wire::block(2, 0, instrument, 0));
        draft.send(wire::block(3, roster.accounts, roster.groups + past, 0));
        for side in [wire::BUY, wire::SELL] {
            let id = draft.free_id();
            draft.send(wire::new(side, last, roster.instruments(), id, 1));
            draft.send(wire::new(side, roster.accounts, instrument, id, 1));
        }
    }
}

/// One group of 32 instruments with the largest weights, balances at or near the largest either
/// way, the largest limits, and orders of up to 1,000,000. By turns all parts of the group's
/// position point the same way, and each its own.
fn figures(seed: u64) -> Day {
    let mut random = Random::new(seed);
    let weights = [LARGEST_WEIGHT, -LARGEST_WEIGHT, 0];
    let weight = |random: &mut Random| random.one_of(&weights[..2 + (seed % 2) as usize]);
    let instruments = (0..32).map(|_| (1, weight(&mut random))).collect();
    let spec = RosterSpec {
        accounts: 1,
        groups: 1,
        groups_of: vec![1],
        instruments,
    };
    let mut draft = Draft::open(random, &spec);
    let way = draft.random.one_of(&[1, -1]);
    for instrument in 1..=32 {
        let sign = match seed % 2 {
            0 => way * draft.book.roster.weight(instrument).signum(),
            _ => draft.random.one_of(&[1, -1]),
        };
        let near = LARGEST - draft.random.one_of(&[0, 1, 1_000_000, 1_500_000]);
        draft.send(wire::balance(1, instrument, sign * near));
    }
    full::widest_lines(&mut draft, 1);
    for _ in 0..150 {
        largest_order(&mut draft);
    }
    draft.finish()
}

/// A NEW, REPLACE or FILL of the largest quantities that limits or remaining leave, or one past.
fn largest_order(draft: &mut Draft) {
    let (instrument, side, id) = (draft.instrument(), draft.side(), draft.free_id());
    let rooms = draft
        .rooms(1, instrument, side)
        .expect("the widest lines are set");
    let near = draft.random.between(0, 1);
    let quantity = draft
        .random
        .one_of(&[1, 1_000_000, rooms[1] + near, 1_000_000 - near]);
    draft.send(wire::new(byte(side), 1, instrument, id, quantity));
    if let Some(order) = draft.open_order() {
        let event = match draft.random.below(3) {
            0 => wire::replace(order.id, 1_000_000),
            1 => wire::fill(order.id, order.remaining()),
            _ => wire::fill(order.id, 1),
        };
        draft.send(event);
    }
}
