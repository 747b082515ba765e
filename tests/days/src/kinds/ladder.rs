//! Events that fail every question at once, mended question by question: the answer climbs through
//! the numbers in order.

use wire::{Fields, RosterSpec};

use super::draft::{byte, Draft};
use super::full;
use super::Kind;
use crate::plain::Side;
use crate::random::Random;
use crate::Day;

pub const KIND: Kind = Kind {
    name: "ladder",
    holds: "events that fail every question, mended question by question",
    seeds: 5,
    make: day,
};

/// The account that climbs. Account 2 holds the other orders.
const ACCOUNT: u16 = 1;

fn day(seed: u64) -> Day {
    let spec = RosterSpec {
        accounts: 2,
        groups: 2,
        groups_of: vec![1, 2, 1],
        instruments: vec![(1, 10_000), (2, -5_000), (3, 0), (3, -10_000)],
    };
    let mut draft = Draft::open(Random::new(seed), &spec);
    lines(&mut draft);
    balance(&mut draft);
    blocks(&mut draft);
    full::widest_lines(&mut draft, 2);
    for instrument in 1..=4 {
        for side in [Side::Buy, Side::Sell] {
            full::fill_up(&mut draft, 2);
            let id = new(&mut draft, instrument, side);
            replace(&mut draft, id);
            fill(&mut draft, id);
            cancel(&mut draft, id);
        }
    }
    draft.send(wire::balance(ACCOUNT, 1, 1));
    draft.finish()
}

/// 6, 7, 8, 9 and 0 at each level.
fn lines(draft: &mut Draft) {
    for (level, wrong, right) in [
        (1, [-2; 4], [-1; 4]),
        (2, [-2; 4], [-1; 4]),
        (3, [-2, -2, 0, 0], [-1, -1, 0, 0]),
    ] {
        let mended = [
            wire::limit(level, 99, 99, wrong),
            wire::limit(level, ACCOUNT, 99, wrong),
            wire::limit(level, ACCOUNT, 1, wrong),
            wire::limit(level, ACCOUNT, 1, right),
        ];
        climb(draft, &mended);
    }
}

/// 6, 7, 8, 9 and 0. At the end of the day, when the account trades, a balance gets 10.
fn balance(draft: &mut Draft) {
    let mended = [
        wire::balance(99, 99, 2_000_000_000),
        wire::balance(ACCOUNT, 99, 2_000_000_000),
        wire::balance(ACCOUNT, 1, 2_000_000_000),
        wire::balance(ACCOUNT, 1, 5),
    ];
    climb(draft, &mended);
}

/// 6, 7 or 8 or both, 9 and 0.
fn blocks(draft: &mut Draft) {
    let account = [
        wire::block(1, 99, 0, 2),
        wire::block(1, ACCOUNT, 0, 2),
        wire::block(1, ACCOUNT, 0, 0),
    ];
    let instrument = [
        wire::block(2, 0, 99, 2),
        wire::block(2, 0, 1, 2),
        wire::block(2, 0, 1, 0),
    ];
    let group = [
        wire::block(3, 99, 99, 2),
        wire::block(3, ACCOUNT, 99, 2),
        wire::block(3, ACCOUNT, 1, 2),
        wire::block(3, ACCOUNT, 1, 0),
    ];
    climb(draft, &account);
    climb(draft, &instrument);
    climb(draft, &group);
}

/// Sends the first event as junk, and then each event.
fn climb(draft: &mut Draft, events: &[Fields]) {
    draft.send(junk(events[0]));
    for &event in events {
        draft.send(event);
    }
}

/// What stands in the way of an order of 10, in the order of the questions from 14 on.
fn obstacles(draft: &Draft, instrument: u16) -> Vec<Fields> {
    let group = draft.book.roster.group(instrument);
    vec![
        wire::block(1, ACCOUNT, 0, 1),
        wire::block(2, 0, instrument, 1),
        wire::block(3, ACCOUNT, group, 1),
        wire::limit(1, ACCOUNT, instrument, [-1; 4]),
        wire::limit(2, ACCOUNT, draft.book.roster.contract(instrument), [-1; 4]),
        wire::limit(3, ACCOUNT, group, [-1, -1, 0, 0]),
    ]
}

/// Takes the obstacles away one by one and sends the event after each.
fn mend(draft: &mut Draft, event: Fields, instrument: u16) {
    let group = draft.book.roster.group(instrument);
    let mended = [
        wire::block(1, ACCOUNT, 0, 0),
        wire::block(2, 0, instrument, 0),
        wire::block(3, ACCOUNT, group, 0),
        wire::limit(3, ACCOUNT, group, [0; 4]),
        wire::limit(1, ACCOUNT, instrument, [9, 9, 0, 0]),
        wire::cancel(anothers(draft)),
        wire::limit(1, ACCOUNT, instrument, [10, 10, 0, 0]),
        wire::limit(1, ACCOUNT, instrument, [10, 10, 100, 100]),
        wire::limit(3, ACCOUNT, group, [100, 100, 0, 0]),
    ];
    for mending in mended {
        draft.send(event);
        draft.send(mending);
    }
    draft.send(event);
}

/// The id of an open order of another account.
fn anothers(draft: &Draft) -> u64 {
    let order = draft
        .book
        .orders
        .iter()
        .find(|order| order.account != ACCOUNT);
    order.map_or(1, |order| order.id)
}

/// Every answer of a NEW, in order, and last its acceptance.
fn new(draft: &mut Draft, instrument: u16, side: Side) -> u64 {
    for obstacle in obstacles(draft, instrument) {
        draft.send(obstacle);
    }
    let (open, free, side) = (draft.book.orders[0].id, draft.free_id(), byte(side));
    let mended = [
        wire::new(side, 99, 99, open, 0),
        wire::new(side, ACCOUNT, 99, open, 0),
        wire::new(side, ACCOUNT, instrument, open, 0),
        wire::new(side, ACCOUNT, instrument, open, 10),
    ];
    climb(draft, &mended);
    mend(
        draft,
        wire::new(side, ACCOUNT, instrument, free, 10),
        instrument,
    );
    free
}

/// Every answer of a REPLACE that raises, in order, and last its acceptance.
fn replace(draft: &mut Draft, id: u64) {
    draft.send(wire::fill(id, 2));
    draft.send(wire::replace(id, 5));
    let instrument = draft.book.order(id).map_or(1, |order| order.instrument);
    for obstacle in obstacles(draft, instrument) {
        draft.send(obstacle);
    }
    let free = draft.free_id();
    for total in [0, 2, 4, 5, 10] {
        draft.send(junk(wire::replace(free, total)));
        draft.send(junk(wire::replace(id, total)));
    }
    draft.send(wire::replace(free, 0));
    draft.send(wire::replace(free, 2));
    draft.send(wire::replace(id, 2));
    mend(draft, wire::replace(id, 10), instrument);
}

/// Every answer of a FILL, in order, and last its acceptance.
fn fill(draft: &mut Draft, id: u64) {
    let free = draft.free_id();
    let remaining = draft.book.order(id).map_or(1, |order| order.remaining());
    for quantity in [0, 1, remaining, remaining + 1] {
        draft.send(junk(wire::fill(free, quantity)));
        draft.send(junk(wire::fill(id, quantity)));
    }
    draft.send(wire::fill(free, 0));
    draft.send(wire::fill(free, 1_000_000));
    draft.send(wire::fill(id, 1_000_000));
    draft.send(wire::fill(id, 1));
}

/// Every answer of a CANCEL, in order, and last its acceptance.
fn cancel(draft: &mut Draft, id: u64) {
    let free = draft.free_id();
    draft.send(junk(wire::cancel(free)));
    draft.send(junk(wire::cancel(id)));
    draft.send(wire::cancel(free));
    draft.send(wire::cancel(id));
}

/// The event with its unnamed byte set.
fn junk(event: Fields) -> Fields {
    Fields { zero: 1, ..event }
}
