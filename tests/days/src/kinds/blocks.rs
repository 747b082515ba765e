//! Blocks set and lifted at each level, alone and together, over every sort of event.

use wire::Fields;

use super::draft::{byte, Draft};
use super::full;
use super::shape::{self, Sizes};
use super::Kind;
use crate::plain::{Order, Side};
use crate::random::Random;
use crate::Day;

pub const KIND: Kind = Kind {
    name: "blocks",
    holds: "blocks set and lifted at each level, alone and together",
    seeds: 3,
    make: day,
};

const SIZES: Sizes = Sizes {
    accounts: 3,
    groups: 2,
    contracts: 3,
    instruments: 5,
};

fn day(seed: u64) -> Day {
    let mut random = Random::new(seed);
    let spec = shape::exactly(&mut random, SIZES, &[10_000, -5_000, 0, -10_000]);
    let mut draft = Draft::open(random, &spec);
    for account in 1..=SIZES.accounts {
        full::widest_lines(&mut draft, account);
    }
    for instrument in 1..=SIZES.instruments {
        for side in [Side::Buy, Side::Sell] {
            let account = draft.account();
            let id = draft.free_id();
            draft.send(wire::new(byte(side), account, instrument, id, 50));
            if let Some(&order) = draft.book.order(id) {
                each_alone(&mut draft, order);
                all_together(&mut draft, order);
            }
        }
    }
    draft.finish()
}

/// The block of each level that an order falls under.
fn blocks(draft: &Draft, order: &Order, on: i64) -> [Fields; 3] {
    [
        wire::block(1, order.account, 0, on),
        wire::block(2, 0, order.instrument, on),
        wire::block(
            3,
            order.account,
            draft.book.roster.group(order.instrument),
            on,
        ),
    ]
}

/// Each block set, set again, lifted and lifted again.
fn each_alone(draft: &mut Draft, order: Order) {
    for (on, off) in blocks(draft, &order, 1)
        .into_iter()
        .zip(blocks(draft, &order, 0))
    {
        for block in [on, on, off, off] {
            draft.send(block);
            under_blocks(draft, order);
        }
    }
}

/// All blocks set, then lifted in the order of the questions or against it.
fn all_together(draft: &mut Draft, order: Order) {
    for block in blocks(draft, &order, 1) {
        draft.send(block);
    }
    let mut lifted = blocks(draft, &order, 0);
    if draft.random.chance(50) {
        lifted.reverse();
    }
    for block in lifted {
        under_blocks(draft, order);
        draft.send(block);
    }
    under_blocks(draft, order);
}

/// Orders of each account and side in the instrument and in its neighbour; the open order raised,
/// kept, lowered and part filled; a line set and a balance.
fn under_blocks(draft: &mut Draft, order: Order) {
    let neighbour = order.instrument % SIZES.instruments + 1;
    for account in 1..=SIZES.accounts {
        for instrument in [order.instrument, neighbour] {
            let (id, side) = (draft.free_id(), draft.side());
            draft.send(wire::new(byte(side), account, instrument, id, 1));
            draft.send(wire::cancel(id));
        }
    }
    let Some(&Order { total, filled, .. }) = draft.book.order(order.id) else {
        return;
    };
    draft.send(wire::replace(order.id, total + 2));
    draft.send(wire::replace(order.id, total));
    draft.send(wire::replace(order.id, (total - 1).max(filled + 1)));
    if total - filled > 10 {
        draft.send(wire::fill(order.id, 1));
    }
    draft.send(wire::balance(order.account, order.instrument, 3));
}
