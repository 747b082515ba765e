//! A desk to try events on.

use crate::{Lent, MEMORY};
use wire::{limit, limit_level, Fields, RosterSpec};

/// The largest figure that a limit may have.
pub const WIDE: i64 = 1_000_000_000;

/// A weight of 1, in ten-thousandths.
pub const ONE: i32 = 10_000;

pub struct Trial {
    pub lent: Lent,
}

/// One account, one group, one contract, and an instrument for each weight.
pub fn one_group(weights: &[i32]) -> RosterSpec {
    RosterSpec {
        accounts: 1,
        groups: 1,
        groups_of: vec![1],
        instruments: weights.iter().map(|&weight| (1, weight)).collect(),
    }
}

/// A LIMIT on an instrument's own line.
pub fn own_line(account: u16, instrument: u16, figures: [i64; 4]) -> Fields {
    limit(limit_level::INSTRUMENT, account, instrument, figures)
}

/// A LIMIT on a contract's default line.
pub fn default_line(account: u16, contract: u16, figures: [i64; 4]) -> Fields {
    limit(limit_level::CONTRACT, account, contract, figures)
}

/// A LIMIT on a group's line.
pub fn group_line(account: u16, group: u16, lcc: i64, lvc: i64) -> Fields {
    limit(limit_level::GROUP, account, group, [lcc, lvc, 0, 0])
}

impl Trial {
    /// A freshly opened desk.
    #[track_caller]
    pub fn open(roster: &RosterSpec) -> Trial {
        let mut lent = Lent::new(MEMORY);
        assert_eq!(lent.open(&roster.bytes()), 0);
        Trial { lent }
    }

    /// A freshly opened desk of one account, group and contract, with wide lines.
    #[track_caller]
    pub fn wide(weights: &[i32]) -> Trial {
        let mut trial = Trial::open(&one_group(weights));
        trial.accept(default_line(1, 1, [WIDE; 4]));
        trial.accept(group_line(1, 1, WIDE, WIDE));
        trial
    }

    #[track_caller]
    pub fn accept(&mut self, event: Fields) {
        assert_eq!(self.lent.event(&event.bytes()), 0, "{event:?}");
    }

    /// The event is refused with this number, and nothing changes.
    #[track_caller]
    pub fn refuse(&mut self, number: u8, event: Fields) {
        self.refuse_bytes(number, &event.bytes());
    }

    /// The bytes are refused with this number, and nothing changes.
    #[track_caller]
    pub fn refuse_bytes(&mut self, number: u8, event: &[u8]) {
        let before = self.lent.clone();
        assert_eq!(self.lent.event(event), number, "{event:?}");
        assert!(self.lent == before, "a refusal changed the desk: {event:?}");
    }

    /// S, PCI and PVI.
    #[track_caller]
    pub fn instrument(&self, account: u16, instrument: u16) -> (i64, i64, i64) {
        let position = self.lent.instrument_position(account, instrument).unwrap();
        (position.balance, position.long, position.short)
    }

    /// PCC and PVC, in ten-thousandths.
    #[track_caller]
    pub fn group(&self, account: u16, group: u16) -> (i64, i64) {
        let position = self.lent.group_position(account, group).unwrap();
        (position.long, position.short)
    }
}
