//! Rosters.

use wire::RosterSpec;

use crate::random::Random;

/// How many of each a roster has, at most.
#[derive(Clone, Copy, Debug)]
pub struct Sizes {
    pub accounts: u16,
    pub groups: u16,
    pub contracts: u16,
    pub instruments: u16,
}

/// The largest roster that is accepted.
pub const LARGEST: Sizes = Sizes {
    accounts: 16,
    groups: 4,
    contracts: 8,
    instruments: 32,
};

/// The smallest roster that is accepted.
pub const SMALLEST: Sizes = Sizes {
    accounts: 1,
    groups: 1,
    contracts: 1,
    instruments: 1,
};

/// Weights of futures, options, puts and of what moves no group.
pub const WEIGHTS: [i32; 11] = [
    10_000, -5_000, 0, -2, 3, 0, 5_000, -10_000, 1_000_000, -1_000_000, 1,
];

/// A roster of exactly these sizes. Contracts and instruments are dealt in turn, so that each group
/// and each contract comes before any comes twice; weights are drawn from `weights`.
pub fn exactly(random: &mut Random, sizes: Sizes, weights: &[i32]) -> RosterSpec {
    let groups_of = (0..sizes.contracts).map(|contract| (contract % sizes.groups) as u8 + 1);
    let first = random.below(weights.len());
    let mut instruments = Vec::new();
    for instrument in 0..usize::from(sizes.instruments) {
        let contract = (instrument % usize::from(sizes.contracts)) as u8 + 1;
        let weight = match instrument < 3 {
            true => weights[(first + instrument) % weights.len()],
            false => random.one_of(weights),
        };
        instruments.push((contract, weight));
    }
    RosterSpec {
        accounts: sizes.accounts,
        groups: sizes.groups,
        groups_of: groups_of.collect(),
        instruments,
    }
}

/// A roster of at most these sizes.
pub fn at_most(random: &mut Random, sizes: Sizes, weights: &[i32]) -> RosterSpec {
    let mut size = |most: u16| random.between(1, i64::from(most)) as u16;
    let sizes = Sizes {
        accounts: size(sizes.accounts),
        groups: size(sizes.groups),
        contracts: size(sizes.contracts),
        instruments: size(sizes.instruments),
    };
    exactly(random, sizes, weights)
}
