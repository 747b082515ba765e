//! An event as bytes.

/// The length of an event in bytes.
pub const EVENT_LENGTH: usize = 48;

pub const BUY: u8 = 1;
pub const SELL: u8 = 2;

/// The kinds of event.
pub mod kind {
    pub const LIMIT: u8 = 1;
    pub const BALANCE: u8 = 2;
    pub const BLOCK: u8 = 3;
    pub const NEW: u8 = 4;
    pub const REPLACE: u8 = 5;
    pub const CANCEL: u8 = 6;
    pub const FILL: u8 = 7;
}

/// The levels of a LIMIT: what its item is.
pub mod limit_level {
    pub const INSTRUMENT: u8 = 1;
    pub const CONTRACT: u8 = 2;
    pub const GROUP: u8 = 3;
}

/// The levels of a BLOCK: what it blocks.
pub mod block_level {
    pub const ACCOUNT: u8 = 1;
    pub const INSTRUMENT: u8 = 2;
    pub const GROUP: u8 = 3;
}

/// The fields of an event, in the order of its bytes.
#[derive(Clone, Copy, Default, PartialEq, Eq, Debug)]
pub struct Fields {
    pub kind: u8,
    pub side: u8,
    pub account: u16,
    pub item: u16,
    pub level: u8,
    pub zero: u8,
    pub id: u64,
    pub figures: [i64; 4],
}

impl Fields {
    pub fn bytes(&self) -> [u8; EVENT_LENGTH] {
        let mut bytes = [0; EVENT_LENGTH];
        bytes[0] = self.kind;
        bytes[1] = self.side;
        bytes[2..4].copy_from_slice(&self.account.to_le_bytes());
        bytes[4..6].copy_from_slice(&self.item.to_le_bytes());
        bytes[6] = self.level;
        bytes[7] = self.zero;
        bytes[8..16].copy_from_slice(&self.id.to_le_bytes());
        for (place, figure) in self.figures.iter().enumerate() {
            let at = 16 + 8 * place;
            bytes[at..at + 8].copy_from_slice(&figure.to_le_bytes());
        }
        bytes
    }
}

/// The four figures TCI, TVI, LCI, LVI; for a group LCC, LVC and two zeros.
pub fn limit(level: u8, account: u16, item: u16, figures: [i64; 4]) -> Fields {
    Fields {
        kind: kind::LIMIT,
        account,
        item,
        level,
        figures,
        ..Fields::default()
    }
}

/// Sets S of an account and instrument.
pub fn balance(account: u16, instrument: u16, s: i64) -> Fields {
    Fields {
        kind: kind::BALANCE,
        account,
        item: instrument,
        figures: [s, 0, 0, 0],
        ..Fields::default()
    }
}

/// Blocks if `on` is 1, lifts if it is 0. Level 1 takes item 0, level 2 account 0.
pub fn block(level: u8, account: u16, item: u16, on: i64) -> Fields {
    Fields {
        kind: kind::BLOCK,
        account,
        item,
        level,
        figures: [on, 0, 0, 0],
        ..Fields::default()
    }
}

pub fn new(side: u8, account: u16, instrument: u16, id: u64, quantity: i64) -> Fields {
    Fields {
        kind: kind::NEW,
        side,
        account,
        item: instrument,
        id,
        figures: [quantity, 0, 0, 0],
        ..Fields::default()
    }
}

pub fn replace(id: u64, total: i64) -> Fields {
    Fields {
        kind: kind::REPLACE,
        id,
        figures: [total, 0, 0, 0],
        ..Fields::default()
    }
}

pub fn cancel(id: u64) -> Fields {
    Fields {
        kind: kind::CANCEL,
        id,
        ..Fields::default()
    }
}

pub fn fill(id: u64, quantity: i64) -> Fields {
    Fields {
        kind: kind::FILL,
        id,
        figures: [quantity, 0, 0, 0],
        ..Fields::default()
    }
}
