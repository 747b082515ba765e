//! Rosters that are refused, and some just within their bounds.

use wire::RosterSpec;

use super::shape::{self, LARGEST, SMALLEST};
use super::Kind;
use crate::random::Random;
use crate::Day;

pub const KIND: Kind = Kind {
    name: "rosters",
    holds: "rosters with other lengths, sizes, numbers and weights, most of them refused",
    seeds: ROSTERS,
    make: day,
};

const LARGEST_WEIGHT: i32 = 1_000_000;

/// How many rosters there are, one for each seed before they come again.
const ROSTERS: u64 = 159;

/// One of the rosters, and a few events, which have no desk to go to where it is refused.
fn day(seed: u64) -> Day {
    let mut rosters = rosters(seed / ROSTERS);
    assert_eq!(rosters.len() as u64, ROSTERS);
    let roster = rosters.swap_remove((seed % ROSTERS) as usize);
    let events = [
        wire::limit(2, 1, 1, [10; 4]),
        wire::limit(3, 1, 1, [10, 10, 0, 0]),
        wire::new(wire::BUY, 1, 1, 1, 1),
        wire::new(wire::SELL, 1, 1, 2, 1),
        wire::cancel(1),
    ];
    let mut events: Vec<Vec<u8>> = events.iter().map(|event| event.bytes().to_vec()).collect();
    events.push(Vec::new());
    Day { roster, events }
}

fn rosters(seed: u64) -> Vec<Vec<u8>> {
    let mut random = Random::new(seed);
    let mut rosters = Vec::new();
    for sizes in [SMALLEST, LARGEST] {
        let sound = shape::exactly(&mut random, sizes, &shape::WEIGHTS);
        rosters.push(sound.bytes());
        rosters.extend(of_other_lengths(&sound.bytes()));
        rosters.extend(of_other_sizes(&sound.bytes()));
        rosters.extend(of_one_more_or_none(&sound));
        rosters.extend(of_other_numbers(&mut random, &sound));
        rosters.extend(of_other_weights(&mut random, &sound));
    }
    rosters.extend([0, 1, 7, 8, 100].map(|length| random_bytes(&mut random, length)));
    rosters
}

/// Too short and too long.
fn of_other_lengths(sound: &[u8]) -> Vec<Vec<u8>> {
    let lengths = [
        0,
        1,
        2,
        4,
        6,
        7,
        8,
        9,
        sound.len() - 1,
        sound.len() + 1,
        sound.len() + 48,
    ];
    let cut = |length: usize| sound.iter().copied().chain([0; 48]).take(length).collect();
    lengths.map(cut).to_vec()
}

/// Each size as a number that the rest does not go with.
fn of_other_sizes(sound: &[u8]) -> Vec<Vec<u8>> {
    let mut rosters = Vec::new();
    for place in [0, 2, 4, 6] {
        let size = u16::from_le_bytes([sound[place], sound[place + 1]]);
        for number in [0, 1, size + 1, size - 1, 17, 33, 256, 257, 65_535] {
            let mut roster = sound.to_vec();
            roster[place..place + 2].copy_from_slice(&number.to_le_bytes());
            rosters.push(roster);
        }
    }
    rosters
}

/// One more of each, and no contract or instrument, with all that goes with it.
fn of_one_more_or_none(sound: &RosterSpec) -> Vec<Vec<u8>> {
    let mut specs = vec![sound.clone(); 7];
    specs[0].accounts += 1;
    specs[1].groups += 1;
    specs[2].groups_of.push(1);
    specs[3].instruments.push((1, 1));
    specs[4].instruments.clear();
    specs[5].groups_of.clear();
    specs[6].instruments.clear();
    specs[6].groups_of.clear();
    specs.iter().map(RosterSpec::bytes).collect()
}

/// A contract's group and an instrument's contract at and past the ends of what there is.
fn of_other_numbers(random: &mut Random, sound: &RosterSpec) -> Vec<Vec<u8>> {
    let mut rosters = Vec::new();
    let contracts = sound.groups_of.len();
    for number in [0, 1, sound.groups as u8, sound.groups as u8 + 1, 255] {
        let mut spec = sound.clone();
        spec.groups_of[random.below(contracts)] = number;
        rosters.push(spec.bytes());
    }
    for number in [0, 1, contracts as u8, contracts as u8 + 1, 255] {
        let mut spec = sound.clone();
        let place = random.below(spec.instruments.len());
        spec.instruments[place].0 = number;
        rosters.push(spec.bytes());
        spec.instruments[place].1 = i32::MAX;
        rosters.push(spec.bytes());
    }
    rosters
}

/// Weights at and past their bounds.
fn of_other_weights(random: &mut Random, sound: &RosterSpec) -> Vec<Vec<u8>> {
    let past = LARGEST_WEIGHT + 1;
    let weights = [
        LARGEST_WEIGHT,
        -LARGEST_WEIGHT,
        past,
        -past,
        i32::MAX,
        i32::MIN,
        0,
    ];
    let weighted = |weight| {
        let mut spec = sound.clone();
        let place = random.below(spec.instruments.len());
        spec.instruments[place].1 = weight;
        spec.bytes()
    };
    weights.map(weighted).to_vec()
}

fn random_bytes(random: &mut Random, length: usize) -> Vec<u8> {
    (0..length).map(|_| random.number() as u8).collect()
}
