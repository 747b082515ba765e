//! A roster as bytes.

/// What a roster says. The numbers of contracts and of instruments are the vectors' lengths.
#[derive(Clone, PartialEq, Eq, Debug)]
pub struct RosterSpec {
    pub accounts: u16,
    pub groups: u16,
    /// For each contract, its group.
    pub groups_of: Vec<u8>,
    /// For each instrument, its contract and its weight in ten-thousandths.
    pub instruments: Vec<(u8, i32)>,
}

impl RosterSpec {
    /// The four sizes, the contracts' groups, the instruments' contracts, the instruments' weights.
    pub fn bytes(&self) -> Vec<u8> {
        let mut bytes = Vec::new();
        bytes.extend(self.accounts.to_le_bytes());
        bytes.extend(self.groups.to_le_bytes());
        bytes.extend(size(self.groups_of.len()).to_le_bytes());
        bytes.extend(size(self.instruments.len()).to_le_bytes());
        bytes.extend(&self.groups_of);
        bytes.extend(self.instruments.iter().map(|(contract, _)| contract));
        for (_, weight) in &self.instruments {
            bytes.extend(weight.to_le_bytes());
        }
        bytes
    }
}

fn size(length: usize) -> u16 {
    u16::try_from(length).expect("a roster's sizes are 16-bit numbers")
}
