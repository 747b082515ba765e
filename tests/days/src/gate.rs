//! A limit gate as its callers see it.

use reference::Lent;
pub use reference::{GroupPosition, InstrumentPosition};

/// A gate over memory of its own. An answer is 0 or the number of a refusal.
pub trait Gate {
    fn open(&mut self, roster: &[u8]) -> u8;

    fn event(&mut self, event: &[u8]) -> u8;

    /// S, PCI and PVI, or the number of a refusal.
    fn instrument_position(&self, account: u16, instrument: u16) -> Result<InstrumentPosition, u8>;

    /// PCC and PVC in ten-thousandths, or the number of a refusal.
    fn group_position(&self, account: u16, group: u16) -> Result<GroupPosition, u8>;
}

impl Gate for Lent {
    fn open(&mut self, roster: &[u8]) -> u8 {
        Lent::open(self, roster)
    }

    fn event(&mut self, event: &[u8]) -> u8 {
        Lent::event(self, event)
    }

    fn instrument_position(&self, account: u16, instrument: u16) -> Result<InstrumentPosition, u8> {
        Lent::instrument_position(self, account, instrument)
    }

    fn group_position(&self, account: u16, group: u16) -> Result<GroupPosition, u8> {
        Lent::group_position(self, account, group)
    }
}

/// The reference on memory that is long enough and holds no desk.
pub fn reference() -> Lent {
    Lent::new(reference::MEMORY)
}
