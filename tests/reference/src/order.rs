//! An open order.

#[derive(Clone, Copy, PartialEq, Eq, Debug)]
pub enum Side {
    Buy,
    Sell,
}

#[derive(Clone, Copy, PartialEq, Eq, Debug)]
pub struct Order {
    pub id: u64,
    pub account: u16,
    pub instrument: u16,
    pub side: Side,
    pub total: u64,
    pub filled: u64,
}

impl Order {
    /// Remaining is total less filled.
    pub fn remaining(&self) -> u64 {
        self.total - self.filled
    }
}
