//! All of an order but its id, in one word of its record.

use reference::Side;

const SELL: u64 = 1 << 5;
const ACCOUNT: u32 = 6;
const FILLED: u32 = 10;
const REMAINING: u32 = 37;

/// Bits 0 to 4 of the word are the instrument less 1, bit 5 is 1 for a sell, bits 6 to 9 are the
/// account less 1, bits 10 to 36 what is filled, and the 27 bits above what remains. Every word says
/// a side, an account from 1 to 16, an instrument from 1 to 32, and a total of at least what is filled.
#[derive(Clone, Copy, PartialEq, Eq, Debug)]
pub struct Detail {
    pub side: Side,
    pub account: u16,
    pub instrument: u16,
    pub filled: u64,
    pub remaining: u64,
}

impl Detail {
    pub fn of(word: u64) -> Detail {
        let side = match word & SELL {
            0 => Side::Buy,
            _ => Side::Sell,
        };
        let bits = |from: u32, to: u32| (word >> from) & ((1 << (to - from)) - 1);
        Detail {
            side,
            account: bits(ACCOUNT, FILLED) as u16 + 1,
            instrument: bits(0, 5) as u16 + 1,
            filled: bits(FILLED, REMAINING),
            remaining: word >> REMAINING,
        }
    }

    pub fn total(self) -> u64 {
        self.filled + self.remaining
    }

    /// The sum of the parts. Numbers that have no room run into other bits, or off the word.
    pub fn word(self) -> u64 {
        let side = match self.side {
            Side::Buy => 0,
            Side::Sell => SELL,
        };
        let parts = [
            u64::from(self.instrument).wrapping_sub(1),
            side,
            u64::from(self.account).wrapping_sub(1) << ACCOUNT,
            self.filled << FILLED,
            self.remaining << REMAINING,
        ];
        parts.into_iter().fold(0, u64::wrapping_add)
    }
}
