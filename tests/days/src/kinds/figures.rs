//! Every number of an event at, just within and just past its bounds.

use wire::Fields;

use super::draft::{byte, Draft};
use super::shape::{self, Sizes};
use super::Kind;
use crate::plain::Side;
use crate::random::Random;
use crate::Day;

pub const KIND: Kind = Kind {
    name: "figures",
    holds:
        "quantities, totals, limits, balances, blocks, accounts, items, levels, sides, kinds and \
            ids at their bounds and one past them",
    seeds: 3,
    make: day,
};

const SIZES: Sizes = Sizes {
    accounts: 3,
    groups: 2,
    contracts: 3,
    instruments: 4,
};

const LARGEST: i64 = 1_000_000_000;

const QUANTITIES: [i64; 10] = [
    i64::MIN,
    -1,
    0,
    1,
    2,
    999_999,
    1_000_000,
    1_000_001,
    65_536,
    i64::MAX,
];

const LIMITS: [i64; 10] = [
    i64::MIN,
    -2,
    -1,
    0,
    1,
    LARGEST - 1,
    LARGEST,
    LARGEST + 1,
    1 << 32,
    i64::MAX,
];

const BALANCES: [i64; 11] = [
    i64::MIN,
    -LARGEST - 1,
    -LARGEST,
    -LARGEST + 1,
    -1,
    0,
    1,
    LARGEST - 1,
    LARGEST,
    LARGEST + 1,
    i64::MAX,
];

fn day(seed: u64) -> Day {
    let mut random = Random::new(seed);
    let spec = shape::exactly(&mut random, SIZES, &[10_000, -5_000, 0]);
    let mut draft = Draft::open(random, &spec);
    balances(&mut draft);
    limits(&mut draft);
    blocks(&mut draft);
    widest_lines(&mut draft);
    numbers(&mut draft);
    for side in [Side::Buy, Side::Sell] {
        for instrument in 1..=SIZES.instruments {
            quantities(&mut draft, side, instrument);
        }
    }
    draft.finish()
}

/// Every balance, last 0.
fn balances(draft: &mut Draft) {
    for instrument in 1..=SIZES.instruments {
        for s in BALANCES.into_iter().chain([0]) {
            draft.send(wire::balance(1, instrument, s));
        }
    }
}

/// Every limit in every figure of every level, alone and throughout.
fn limits(draft: &mut Draft) {
    for level in 1..=3 {
        for figure in LIMITS {
            let named = if level == 3 { 2 } else { 4 };
            let mut throughout = [0; 4];
            throughout[..named].fill(figure);
            draft.send(wire::limit(level, 1, 1, throughout));
            for place in 0..4 {
                let mut alone = [0; 4];
                alone[..named].fill(LARGEST);
                alone[place] = figure;
                draft.send(wire::limit(level, 1, 1, alone));
            }
        }
        draft.send(wire::limit(level, 1, 1, [-1; 4]));
        draft.send(wire::limit(level, 1, 1, [-1, -1, 0, 0]));
    }
}

fn blocks(draft: &mut Draft) {
    for figure in [i64::MIN, -1, 2, i64::MAX, 1, 0] {
        draft.send(wire::block(1, 1, 0, figure));
        draft.send(wire::block(2, 0, 1, figure));
        draft.send(wire::block(3, 1, 1, figure));
    }
}

fn widest_lines(draft: &mut Draft) {
    for account in 1..=SIZES.accounts {
        for contract in 1..=SIZES.contracts {
            draft.send(wire::limit(2, account, contract, [LARGEST; 4]));
        }
        for group in 1..=SIZES.groups {
            draft.send(wire::limit(3, account, group, [LARGEST, LARGEST, 0, 0]));
        }
    }
}

/// A sound event of each kind and level.
fn one_of_each() -> [Fields; 12] {
    [
        wire::limit(1, 1, 1, [LARGEST; 4]),
        wire::limit(2, 1, 1, [LARGEST; 4]),
        wire::limit(3, 1, 1, [LARGEST, LARGEST, 0, 0]),
        wire::balance(1, 1, 5),
        wire::block(1, 1, 0, 0),
        wire::block(2, 0, 1, 0),
        wire::block(3, 1, 1, 0),
        wire::new(wire::BUY, 1, 1, 1, 5),
        wire::new(wire::SELL, 1, 1, 2, 5),
        wire::replace(1, 6),
        wire::fill(1, 1),
        wire::cancel(1),
    ]
}

/// Accounts, items, levels, sides, kinds and ids at and past the ends of what there is.
fn numbers(draft: &mut Draft) {
    for event in one_of_each() {
        for number in [0, 1, 2, 3, 4, 5, 255, 256, 65_535] {
            draft.send(Fields {
                account: number,
                ..event
            });
            draft.send(Fields {
                item: number,
                ..event
            });
        }
        for number in [0, 1, 2, 3, 4, 8, 255] {
            draft.send(Fields {
                level: number,
                ..event
            });
            draft.send(Fields {
                side: number,
                ..event
            });
            draft.send(Fields {
                kind: number,
                ..event
            });
        }
        for id in [0, 1, 2, 1 << 32, 1 << 63, u64::MAX] {
            draft.send(Fields { id, ..event });
        }
    }
}

/// Every quantity of a NEW, and of a REPLACE and a FILL of a part-filled order.
fn quantities(draft: &mut Draft, side: Side, instrument: u16) {
    for quantity in QUANTITIES {
        let id = draft.free_id();
        draft.send(wire::new(byte(side), 2, instrument, id, quantity));
        draft.send(wire::cancel(id));
    }
    let id = draft.free_id();
    draft.send(wire::new(byte(side), 2, instrument, id, 10));
    draft.send(wire::fill(id, 3));
    for total in QUANTITIES.into_iter().chain([2, 3, 4, 9, 10, 11, 10]) {
        draft.send(wire::replace(id, total));
    }
    for quantity in QUANTITIES.into_iter().chain([8, 6, 2]) {
        draft.send(wire::fill(id, quantity));
    }
    draft.send(wire::cancel(id));
    draft.send(wire::new(byte(side), 2, instrument, id, 1_000_000));
    draft.send(wire::fill(id, 1_000_001));
    draft.send(wire::fill(id, 1_000_000));
}
