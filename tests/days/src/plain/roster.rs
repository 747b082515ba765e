//! A roster.

/// A roster as its bytes say it. Everything is numbered from 1.
#[derive(Clone, PartialEq, Eq, Debug)]
pub struct Roster {
    pub accounts: u16,
    pub groups: u16,
    groups_of: Vec<u16>,
    contracts_of: Vec<u16>,
    weights: Vec<i64>,
}

impl Roster {
    /// Reads a roster, in range or not; none if the bytes are not as long as their sizes say.
    pub fn read(bytes: &[u8]) -> Option<Roster> {
        let size = |place: usize| {
            Some(u16::from_le_bytes([
                *bytes.get(place)?,
                *bytes.get(place + 1)?,
            ]))
        };
        let (accounts, groups) = (size(0)?, size(2)?);
        let (contracts, instruments) = (usize::from(size(4)?), usize::from(size(6)?));
        if bytes.len() != 8 + contracts + 5 * instruments {
            return None;
        }
        let (groups_of, rest) = bytes[8..].split_at(contracts);
        let (contracts_of, weights) = rest.split_at(instruments);
        let weight =
            |four: &[u8]| i64::from(i32::from_le_bytes([four[0], four[1], four[2], four[3]]));
        Some(Roster {
            accounts,
            groups,
            groups_of: groups_of.iter().map(|&group| u16::from(group)).collect(),
            contracts_of: contracts_of
                .iter()
                .map(|&contract| u16::from(contract))
                .collect(),
            weights: weights.chunks(4).map(weight).collect(),
        })
    }

    pub fn contracts(&self) -> u16 {
        self.groups_of.len() as u16
    }

    pub fn instruments(&self) -> u16 {
        self.weights.len() as u16
    }

    /// The group of each contract.
    pub fn groups_of(&self) -> impl Iterator<Item = u16> + '_ {
        self.groups_of.iter().copied()
    }

    /// The contract of each instrument.
    pub fn contracts_of(&self) -> impl Iterator<Item = u16> + '_ {
        self.contracts_of.iter().copied()
    }

    /// The contract of an instrument.
    pub fn contract(&self, instrument: u16) -> u16 {
        self.contracts_of[usize::from(instrument) - 1]
    }

    /// The group of an instrument.
    pub fn group(&self, instrument: u16) -> u16 {
        self.groups_of[usize::from(self.contract(instrument)) - 1]
    }

    /// K of an instrument, in ten-thousandths.
    pub fn weight(&self, instrument: u16) -> i64 {
        self.weights[usize::from(instrument) - 1]
    }

    pub fn has_account(&self, account: u16) -> bool {
        (1..=self.accounts).contains(&account)
    }

    pub fn has_group(&self, group: u16) -> bool {
        (1..=self.groups).contains(&group)
    }

    pub fn has_contract(&self, contract: u16) -> bool {
        (1..=self.contracts()).contains(&contract)
    }

    pub fn has_instrument(&self, instrument: u16) -> bool {
        (1..=self.instruments()).contains(&instrument)
    }
}
