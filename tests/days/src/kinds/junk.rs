//! Junk in events: each field of sound events changed, wrong lengths, random bytes.

use std::ops::Range;

use wire::Fields;

use super::draft::Draft;
use super::shape::{self, Sizes};
use super::traffic;
use super::Kind;
use crate::random::Random;
use crate::Day;

pub const EVERY_FIELD: Kind = Kind {
    name: "every field",
    holds: "each field of each kind of event changed to 0, 1, the largest, a random number, one \
            more and one less",
    seeds: 2,
    make: every_field,
};

pub const NOISE: Kind = Kind {
    name: "noise",
    holds: "wrong lengths, random bytes, events with several fields changed",
    seeds: 10,
    make: noise,
};

const SIZES: Sizes = Sizes {
    accounts: 2,
    groups: 2,
    contracts: 3,
    instruments: 4,
};

/// The places of an event's fields.
const FIELDS: [Range<usize>; 11] = [
    0..1,
    1..2,
    2..4,
    4..6,
    6..7,
    7..8,
    8..16,
    16..24,
    24..32,
    32..40,
    40..48,
];

/// What a field is changed to.
#[derive(Clone, Copy, Debug)]
enum Change {
    Zero,
    One,
    /// Every bit set: the largest unsigned number, −1 as a signed one.
    AllBits,
    /// The largest signed number.
    LargestSigned,
    Up,
    Down,
    Random,
}

const CHANGES: [Change; 7] = [
    Change::Zero,
    Change::One,
    Change::AllBits,
    Change::LargestSigned,
    Change::Up,
    Change::Down,
    Change::Random,
];

/// Every field of every kind of event changed in every way, among sound traffic.
fn every_field(seed: u64) -> Day {
    let mut draft = begin(seed);
    for field in FIELDS {
        for change in CHANGES {
            for template in TEMPLATES {
                let event = template(&mut draft).bytes();
                let spoiled = changed(&mut draft.random, event, field.clone(), change);
                draft.send_bytes(&spoiled);
                let next = traffic::next(&mut draft);
                draft.send(next);
            }
        }
    }
    draft.finish()
}

/// Wrong lengths, random bytes and events with several fields changed, among sound traffic.
fn noise(seed: u64) -> Day {
    let mut draft = begin(seed);
    for _ in 0..150 {
        let next = traffic::next(&mut draft);
        let bytes = match draft.random.below(3) {
            0 => another_length(&mut draft.random, next.bytes()),
            1 => random_bytes(&mut draft.random),
            _ => several_changed(&mut draft.random, next.bytes()),
        };
        draft.send_bytes(&bytes);
        let next = traffic::next(&mut draft);
        draft.send(next);
    }
    draft.finish()
}

fn begin(seed: u64) -> Draft {
    let mut random = Random::new(seed);
    let spec = shape::exactly(&mut random, SIZES, &shape::WEIGHTS);
    let mut draft = Draft::open(random, &spec);
    traffic::prepare(&mut draft, 1_000);
    draft
}

type Template = fn(&mut Draft) -> Fields;

/// A sound event of each kind and level.
const TEMPLATES: [Template; 12] = [
    |draft| wire::limit(1, draft.account(), draft.instrument(), [1_000; 4]),
    |draft| wire::limit(2, draft.account(), draft.contract(), [1_000; 4]),
    |draft| wire::limit(3, draft.account(), draft.group(), [1_000, 1_000, 0, 0]),
    traffic::balance,
    |draft| wire::block(1, draft.account(), 0, 0),
    |draft| wire::block(2, 0, draft.instrument(), 0),
    |draft| wire::block(3, draft.account(), draft.group(), 0),
    |draft| {
        wire::new(
            wire::BUY,
            draft.account(),
            draft.instrument(),
            draft.free_id(),
            2,
        )
    },
    |draft| {
        wire::new(
            wire::SELL,
            draft.account(),
            draft.instrument(),
            draft.free_id(),
            2,
        )
    },
    |draft| {
        draft.open_order().map_or(wire::replace(1, 2), |order| {
            wire::replace(order.id, order.total + 1)
        })
    },
    |draft| {
        draft
            .open_order()
            .map_or(wire::cancel(1), |order| wire::cancel(order.id))
    },
    |draft| {
        draft
            .open_order()
            .map_or(wire::fill(1, 1), |order| wire::fill(order.id, 1))
    },
];

fn changed(
    random: &mut Random,
    mut event: [u8; 48],
    field: Range<usize>,
    change: Change,
) -> [u8; 48] {
    let bytes = &mut event[field];
    let mut eight = [0; 8];
    eight[..bytes.len()].copy_from_slice(bytes);
    let before = u64::from_le_bytes(eight);
    let after = match change {
        Change::Zero => 0,
        Change::One => 1,
        Change::AllBits => u64::MAX,
        Change::LargestSigned => (1 << (8 * bytes.len() - 1)) - 1,
        Change::Up => before.wrapping_add(1),
        Change::Down => before.wrapping_sub(1),
        Change::Random => random.number(),
    };
    bytes.copy_from_slice(&after.to_le_bytes()[..bytes.len()]);
    event
}

fn several_changed(random: &mut Random, mut event: [u8; 48]) -> Vec<u8> {
    for _ in 0..random.between(2, 4) {
        let field = FIELDS[random.below(FIELDS.len())].clone();
        let change = random.one_of(&CHANGES);
        event = changed(random, event, field, change);
    }
    event.to_vec()
}

fn another_length(random: &mut Random, event: [u8; 48]) -> Vec<u8> {
    let any = random.below(200);
    let length = random.one_of(&[0, 1, 2, 8, 16, 24, 47, 49, 96, any]);
    event.into_iter().cycle().take(length).collect()
}

/// 48 random bytes, mostly of a listed kind.
fn random_bytes(random: &mut Random) -> Vec<u8> {
    let mut bytes: Vec<u8> = (0..48).map(|_| random.number() as u8).collect();
    if random.chance(80) {
        bytes[0] = random.between(1, 7) as u8;
    }
    bytes
}
