//! Every limit exactly reached, and passed by one: TCI, TVI, LCI, LVI, LCC and LVC, by a NEW and by
//! a REPLACE, for every side and sign of weight.

use super::draft::{byte, Draft};
use super::Kind;
use crate::plain::Side;
use crate::random::Random;
use crate::Day;

pub const KIND: Kind = Kind {
    name: "edges",
    holds: "TCI, TVI, LCI, LVI, LCC and LVC exactly reached and passed by one, by a NEW and by a \
            REPLACE",
    seeds: 6,
    make: day,
};

const WEIGHTS: [i32; 8] = [10_000, -5_000, 0, -2, 3, 1_000_000, -1_000_000, 1];

const LARGEST: i64 = 1_000_000_000;

/// Which limit is the tight one; the others are the widest.
#[derive(Clone, Copy, Debug)]
enum Tight {
    /// TCI or TVI.
    Size,
    /// LCI or LVI.
    Instrument,
    /// LCC or LVC.
    Group,
}

fn day(seed: u64) -> Day {
    let random = Random::new(seed);
    let spec = wire::RosterSpec {
        accounts: 2,
        groups: 2,
        groups_of: vec![1, 2, 1],
        instruments: (0..)
            .zip(WEIGHTS)
            .map(|(place, weight)| (place % 3 + 1, weight))
            .collect(),
    };
    let mut draft = Draft::open(random, &spec);
    for instrument in 1..=WEIGHTS.len() as u16 {
        let s = 10_000 * draft.random.between(-5, 5);
        draft.send(wire::balance(1, instrument, s));
    }
    for instrument in 1..=WEIGHTS.len() as u16 {
        for side in [Side::Buy, Side::Sell] {
            for tight in [Tight::Size, Tight::Instrument, Tight::Group] {
                edge(&mut draft, instrument, side, tight);
            }
        }
    }
    draft.finish()
}

/// Sets one limit tight, then sends a NEW and REPLACEs at it and past it by one.
fn edge(draft: &mut Draft, instrument: u16, side: Side, tight: Tight) {
    let level = draft.random.between(1, 2) as u8;
    lines(draft, level, instrument, side, tight);
    let Some(room) = room(draft, instrument, side, tight) else {
        return;
    };
    let (id, filled) = (draft.free_id(), draft.random.between(1, 3));
    draft.send(wire::new(byte(side), 1, instrument, id, room + 1));
    draft.send(wire::new(byte(side), 1, instrument, id, room));
    draft.send(wire::replace(id, room + 1));
    draft.send(wire::replace(id, room - 1));
    draft.send(wire::fill(id, filled));
    draft.send(wire::replace(id, room));
    draft.send(wire::replace(id, room + 1));
    let next = draft.free_id();
    draft.send(wire::new(byte(side), 1, instrument, next, 1));
    if draft.random.chance(50) {
        draft.send(wire::cancel(id));
    }
}

/// The widest lines, but for the tight limit, which leaves from 1,000 to 2,000 contracts or so.
fn lines(draft: &mut Draft, level: u8, instrument: u16, side: Side, tight: Tight) {
    let (item, group) = (
        draft.book.roster.contract(instrument),
        draft.book.roster.group(instrument),
    );
    let item = if level == 1 { instrument } else { item };
    draft.send(wire::limit(1, 1, instrument, [-1; 4]));
    draft.send(wire::limit(level, 1, item, [LARGEST; 4]));
    draft.send(wire::limit(3, 1, group, [LARGEST, LARGEST, 0, 0]));
    let near = draft.random.between(1_000, 2_000);
    let rooms = draft
        .rooms(1, instrument, side)
        .expect("both lines are set");
    let (mut line, mut group_line) = ([LARGEST; 4], [LARGEST, LARGEST, 0, 0]);
    match tight {
        Tight::Size => line[..2].fill(near),
        Tight::Instrument => line[2..].fill((LARGEST - rooms[1] + near).max(0)),
        Tight::Group => {
            let weight = draft.book.roster.weight(instrument).abs();
            let position = rooms
                .get(2)
                .map_or(0, |room| LARGEST * 10_000 - room * weight);
            group_line[..2].fill(((position + near * weight) / 10_000 + 1).clamp(0, LARGEST));
        }
    }
    draft.send(wire::limit(level, 1, item, line));
    draft.send(wire::limit(3, 1, group, group_line));
}

/// What the tight limit leaves, if it is from 2 to the largest quantity.
fn room(draft: &Draft, instrument: u16, side: Side, tight: Tight) -> Option<i64> {
    let rooms = draft.rooms(1, instrument, side)?;
    let place = match tight {
        Tight::Size => 0,
        Tight::Instrument => 1,
        Tight::Group => 2,
    };
    rooms
        .get(place)
        .copied()
        .filter(|room| (2..1_000_000).contains(room))
}
