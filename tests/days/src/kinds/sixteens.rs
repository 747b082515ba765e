//! Whole blocks of sixteen open orders: the first and the last of each block is asked for, and ids beside them.

use super::draft::{byte, Draft};
use super::full::widest_lines;
use super::shape::{self, Sizes};
use super::Kind;
use crate::random::Random;
use crate::Day;

pub const KIND: Kind = Kind {
    name: "sixteens",
    holds: "16, 32, 240 and 256 open orders; the first and the last of each sixteen, ids between them and behind all",
    seeds: 3,
    make: day,
};

const SIZES: Sizes = Sizes {
    accounts: 3,
    groups: 2,
    contracts: 3,
    instruments: 5,
};

/// How many orders are open when ids are asked for.
const OPEN: [usize; 4] = [16, 32, 240, 256];

fn day(seed: u64) -> Day {
    let mut random = Random::new(seed);
    let spec = shape::exactly(&mut random, SIZES, &[10_000, -5_000, 0]);
    let mut ids = ids(&mut random);
    let mut draft = Draft::open(random, &spec);
    for account in 1..=SIZES.accounts {
        widest_lines(&mut draft, account);
    }
    for open in OPEN {
        while draft.book.orders.len() < open {
            let any = draft.random.below(ids.len());
            enter(&mut draft, ids.swap_remove(any));
        }
        ask(&mut draft);
    }
    draft.finish()
}

/// As many ids as orders can be open, none beside another.
fn ids(random: &mut Random) -> Vec<u64> {
    let mut id = random.one_of(&[1, (1 << 32) - 700, (1 << 63) - 700]);
    let mut ids = Vec::new();
    for _ in 0..OPEN[3] {
        id += random.between(2, 9) as u64;
        ids.push(id);
    }
    ids
}

fn enter(draft: &mut Draft, id: u64) {
    let (account, instrument, side) = (draft.account(), draft.instrument(), draft.side());
    let quantity = draft.random.between(5, 20);
    draft.send(wire::new(byte(side), account, instrument, id, quantity));
}

/// Asks for the ends of each block, and for the ids before and behind it. As many orders stay open.
fn ask(draft: &mut Draft) {
    let mut open: Vec<u64> = draft.book.orders.iter().map(|order| order.id).collect();
    open.sort_unstable();
    for block in open.chunks(16) {
        let (first, last) = (block[0], block[block.len() - 1]);
        not_open(draft, first - 1);
        not_open(draft, last + 1);
        for id in [first, last] {
            change(draft, id);
            close(draft, id);
        }
    }
}

/// An id that is not open.
fn not_open(draft: &mut Draft, id: u64) {
    draft.send(wire::replace(id, 9));
    draft.send(wire::cancel(id));
    draft.send(wire::fill(id, 1));
}

/// Raises the order, fills a part of it, lowers it to what is filled and to more, and enters its id again.
fn change(draft: &mut Draft, id: u64) {
    let total = draft.book.order(id).map_or(9, |order| order.total);
    draft.send(wire::replace(id, total + 3));
    draft.send(wire::fill(id, 1));
    draft.send(wire::replace(id, 1));
    draft.send(wire::replace(id, total));
    enter(draft, id);
}

/// Closes the order by a cancel, and one of the same id by a fill of what remains; then the id is open again.
fn close(draft: &mut Draft, id: u64) {
    draft.send(wire::cancel(id));
    enter(draft, id);
    let remaining = draft.book.order(id).map_or(1, |order| order.remaining());
    draft.send(wire::fill(id, remaining));
    enter(draft, id);
}
