//! A day's parameters, its roster and its limit lines.

use wire::{limit, limit_level, Fields, RosterSpec};

/// How order ids are chosen.
#[derive(Clone, Copy, PartialEq, Eq, Debug)]
pub enum Ids {
    /// Random 64-bit numbers.
    Random,
    /// Ascending, as an exchange assigns them.
    Ascending,
}

/// The parameters of a day.
#[derive(Clone, Copy, Debug)]
pub struct Market {
    pub accounts: u16,
    pub groups: u16,
    pub contracts: u16,
    pub instruments: u16,
    /// How many orders are kept open, about.
    pub open_orders: usize,
    pub events: usize,
    pub ids: Ids,
}

/// The largest order that most lines allow.
pub const LARGEST_ORDER: i64 = 1_000;

/// Weights in ten-thousandths, by instrument in turn.
const WEIGHTS: [i32; 7] = [10_000, -5_000, 2_500, 0, -10_000, 7_500, 5_000];

/// What a limit allows an instrument beyond its resting orders.
const INSTRUMENT_MARGIN: i64 = 9_000;

/// What a limit allows a group beyond its resting orders.
const GROUP_MARGIN: i64 = 11_000;

/// What remains of a resting order, about.
const RESTING: i64 = 300;

impl Market {
    pub const HEAVY: Market = Market {
        accounts: 16,
        groups: 4,
        contracts: 8,
        instruments: 32,
        open_orders: 244,
        events: 1_000_000,
        ids: Ids::Random,
    };

    pub const LIGHT: Market = Market {
        accounts: 2,
        groups: 1,
        contracts: 2,
        instruments: 4,
        open_orders: 8,
        ..Market::HEAVY
    };

    /// The same market with so many instruments, and contracts and groups that fit.
    pub fn with_instruments(self, instruments: u16) -> Market {
        let contracts = self.contracts.min(instruments);
        Market {
            instruments,
            contracts,
            groups: self.groups.min(contracts),
            ..self
        }
    }

    /// Contracts go to the groups in turn, instruments to the contracts.
    pub fn roster(&self) -> Vec<u8> {
        let instrument = |i: u16| {
            let weight = WEIGHTS[usize::from(i) % WEIGHTS.len()];
            ((1 + i % self.contracts) as u8, weight)
        };
        let spec = RosterSpec {
            accounts: self.accounts,
            groups: self.groups,
            groups_of: (0..self.contracts)
                .map(|c| (1 + c % self.groups) as u8)
                .collect(),
            instruments: (0..self.instruments).map(instrument).collect(),
        };
        spec.bytes()
    }

    /// What rests on one side of an account's instrument, about.
    fn resting(&self) -> i64 {
        let sides = 2 * i64::from(self.accounts) * i64::from(self.instruments);
        self.open_orders as i64 * RESTING / sides
    }

    /// A contract's default line.
    pub fn default_line(&self, account: u16, contract: u16) -> Fields {
        let most = INSTRUMENT_MARGIN + 3 * self.resting();
        let figures = [LARGEST_ORDER, LARGEST_ORDER, most, most];
        limit(limit_level::CONTRACT, account, contract, figures)
    }

    /// An instrument's own line, a little wider than the default.
    pub fn own_line(&self, account: u16, instrument: u16) -> Fields {
        let most = INSTRUMENT_MARGIN + 4 * self.resting();
        let largest = LARGEST_ORDER + 100;
        let figures = [largest, largest, most, most];
        limit(limit_level::INSTRUMENT, account, instrument, figures)
    }

    pub fn group_line(&self, account: u16, group: u16) -> Fields {
        let instruments = i64::from(self.instruments.div_ceil(self.groups));
        let most = GROUP_MARGIN + 2 * instruments * self.resting();
        limit(limit_level::GROUP, account, group, [most, most, 0, 0])
    }
}
