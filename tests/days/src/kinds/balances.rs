//! Balances before and after trading: an accepted NEW marks its account, and nothing takes the mark
//! away.

use super::draft::{byte, Draft};
use super::full;
use super::shape::{self, Sizes};
use super::traffic;
use super::Kind;
use crate::random::Random;
use crate::Day;

pub const KIND: Kind = Kind {
    name: "balances",
    holds: "balances before and after trading",
    seeds: 4,
    make: day,
};

const SIZES: Sizes = Sizes {
    accounts: 4,
    groups: 2,
    contracts: 3,
    instruments: 4,
};

fn day(seed: u64) -> Day {
    let mut random = Random::new(seed);
    let spec = shape::exactly(&mut random, SIZES, &shape::WEIGHTS);
    let mut draft = Draft::open(random, &spec);
    for account in 1..=SIZES.accounts {
        every_balance(&mut draft);
        trade(&mut draft, account);
    }
    every_balance(&mut draft);
    for _ in 0..40 {
        let next = match draft.random.chance(30) {
            true => traffic::balance(&mut draft),
            false => traffic::next(&mut draft),
        };
        draft.send(next);
    }
    draft.finish()
}

/// A BALANCE of every account and instrument, twice for some.
fn every_balance(draft: &mut Draft) {
    for account in 1..=SIZES.accounts {
        for instrument in 1..=SIZES.instruments {
            for _ in 0..draft.random.between(1, 2) {
                let s = draft.random.between(-1_000, 1_000);
                draft.send(wire::balance(account, instrument, s));
            }
        }
    }
}

/// Refused orders, which mark no account; then one that is accepted and closed.
fn trade(draft: &mut Draft, account: u16) {
    let (instrument, side) = (draft.instrument(), draft.side());
    let id = draft.free_id();
    let order = wire::new(byte(side), account, instrument, id, 7);
    draft.send(order);
    draft.send(wire::balance(account, instrument, -2));
    full::widest_lines(draft, account);
    draft.send(wire::block(1, account, 0, 1));
    draft.send(order);
    draft.send(wire::balance(account, instrument, 2));
    draft.send(wire::block(1, account, 0, 0));
    draft.send(order);
    draft.send(wire::balance(account, instrument, 0));
    let closing = match draft.random.chance(50) {
        true => wire::cancel(id),
        false => wire::fill(id, 7),
    };
    draft.send(closing);
    draft.send(wire::balance(account, instrument, 0));
}
