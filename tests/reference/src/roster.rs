//! The roster: its sizes, its bytes, and what may stand in it.

use std::ops::RangeInclusive;

const ACCOUNTS: RangeInclusive<u16> = 1..=16;
const GROUPS: RangeInclusive<u16> = 1..=4;
const CONTRACTS: RangeInclusive<u16> = 1..=8;
const INSTRUMENTS: RangeInclusive<u16> = 1..=32;

/// A weight, in ten-thousandths.
const WEIGHTS: RangeInclusive<i64> = -1_000_000..=1_000_000;

/// The four sizes that a roster begins with.
#[derive(Clone, Copy, PartialEq, Eq, Debug)]
pub struct Sizes {
    pub accounts: u16,
    pub groups: u16,
    pub contracts: u16,
    pub instruments: u16,
}

impl Sizes {
    /// The number of bytes that the sizes take.
    pub const LENGTH: usize = 8;

    /// The sizes at the beginning of `bytes`, if there are bytes enough.
    pub fn read(bytes: &[u8]) -> Option<Sizes> {
        let size = |at: usize| Some(u16::from_le_bytes([*bytes.get(at)?, *bytes.get(at + 1)?]));
        Some(Sizes {
            accounts: size(0)?,
            groups: size(2)?,
            contracts: size(4)?,
            instruments: size(6)?,
        })
    }

    pub fn are_within_limits(&self) -> bool {
        ACCOUNTS.contains(&self.accounts)
            && GROUPS.contains(&self.groups)
            && CONTRACTS.contains(&self.contracts)
            && INSTRUMENTS.contains(&self.instruments)
    }

    /// The length in bytes of a roster of these sizes.
    pub fn roster_length(&self) -> usize {
        Sizes::LENGTH + usize::from(self.contracts) + 5 * usize::from(self.instruments)
    }
}

/// The roster. Accounts, groups, contracts and instruments are numbered from 1; the vectors hold
/// contract 1 and instrument 1 first.
#[derive(Clone, PartialEq, Eq, Debug)]
pub struct Roster {
    pub accounts: u16,
    pub groups: u16,
    /// For each contract, its group.
    pub group_of_contract: Vec<u16>,
    /// For each instrument, its contract.
    pub contract_of: Vec<u16>,
    /// For each instrument, its weight K in ten-thousandths.
    pub weight: Vec<i64>,
}

impl Roster {
    /// The roster in `bytes`, if its sizes are within their limits and its length is exact.
    pub fn read(bytes: &[u8]) -> Option<Roster> {
        let sizes = Sizes::read(bytes)?;
        if !sizes.are_within_limits() || bytes.len() != sizes.roster_length() {
            return None;
        }
        let (groups, rest) = bytes[Sizes::LENGTH..].split_at(usize::from(sizes.contracts));
        let (contracts, weights) = rest.split_at(usize::from(sizes.instruments));
        let weight = |bytes: &[u8]| i32::from_le_bytes([bytes[0], bytes[1], bytes[2], bytes[3]]);
        Some(Roster {
            accounts: sizes.accounts,
            groups: sizes.groups,
            group_of_contract: groups.iter().map(|&group| u16::from(group)).collect(),
            contract_of: contracts
                .iter()
                .map(|&contract| u16::from(contract))
                .collect(),
            weight: weights
                .chunks(4)
                .map(|bytes| i64::from(weight(bytes)))
                .collect(),
        })
    }

    pub fn contracts(&self) -> u16 {
        self.group_of_contract.len() as u16
    }

    pub fn instruments(&self) -> u16 {
        self.contract_of.len() as u16
    }

    pub fn sizes(&self) -> Sizes {
        Sizes {
            accounts: self.accounts,
            groups: self.groups,
            contracts: self.contracts(),
            instruments: self.instruments(),
        }
    }

    pub fn has_account(&self, account: u16) -> bool {
        (1..=self.accounts).contains(&account)
    }

    pub fn has_group(&self, group: u16) -> bool {
        (1..=self.groups).contains(&group)
    }

    pub fn has_contract(&self, contract: u16) -> bool {
        (1..=self.contracts()).contains(&contract)
    }

    pub fn has_instrument(&self, instrument: u16) -> bool {
        (1..=self.instruments()).contains(&instrument)
    }

    pub fn contract_of_instrument(&self, instrument: u16) -> u16 {
        self.contract_of[usize::from(instrument) - 1]
    }

    pub fn group_of_instrument(&self, instrument: u16) -> u16 {
        let contract = self.contract_of_instrument(instrument);
        self.group_of_contract[usize::from(contract) - 1]
    }

    /// K of an instrument, in ten-thousandths.
    pub fn weight_of_instrument(&self, instrument: u16) -> i64 {
        self.weight[usize::from(instrument) - 1]
    }

    /// The instruments of a group, ascending.
    pub fn instruments_of_group(&self, group: u16) -> impl Iterator<Item = u16> + '_ {
        (1..=self.instruments()).filter(move |&each| self.group_of_instrument(each) == group)
    }

    /// Every contract names a group of the roster, and every instrument a contract.
    pub fn names_only_what_it_has(&self) -> bool {
        self.group_of_contract
            .iter()
            .all(|&group| self.has_group(group))
            && self
                .contract_of
                .iter()
                .all(|&contract| self.has_contract(contract))
    }

    pub fn has_every_weight_in_range(&self) -> bool {
        self.weight.iter().all(|weight| WEIGHTS.contains(weight))
    }
}
