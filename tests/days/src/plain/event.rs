//! Events as their bytes say them.

use std::ops::Range;

#[derive(Clone, Copy, PartialEq, Eq, PartialOrd, Ord, Debug)]
pub enum Side {
    Buy,
    Sell,
}

/// A limit line by its name.
#[derive(Clone, Copy, PartialEq, Eq, PartialOrd, Ord, Debug)]
pub enum Line {
    /// An account's own line of an instrument.
    Own { account: u16, instrument: u16 },
    /// An account's default line of a contract.
    Default { account: u16, contract: u16 },
    /// An account's line of a group.
    Group { account: u16, group: u16 },
}

/// What a BLOCK blocks.
#[derive(Clone, Copy, PartialEq, Eq, PartialOrd, Ord, Debug)]
pub enum Block {
    Account(u16),
    /// An instrument for all accounts.
    Instrument(u16),
    /// A group for one account.
    Group {
        account: u16,
        group: u16,
    },
}

/// An event that passes question 6. Its figures may still be out of range.
#[derive(Clone, Copy, PartialEq, Eq, Debug)]
pub enum Event {
    Limit {
        line: Line,
        figures: [i64; 4],
    },
    Balance {
        account: u16,
        instrument: u16,
        figure: i64,
    },
    Block {
        block: Block,
        figure: i64,
    },
    New {
        side: Side,
        account: u16,
        instrument: u16,
        id: u64,
        quantity: i64,
    },
    Replace {
        id: u64,
        total: i64,
    },
    Cancel {
        id: u64,
    },
    Fill {
        id: u64,
        quantity: i64,
    },
}

const KIND: Range<usize> = 0..1;
const SIDE: Range<usize> = 1..2;
const ACCOUNT: Range<usize> = 2..4;
const ITEM: Range<usize> = 4..6;
const LEVEL: Range<usize> = 6..7;
const ID: Range<usize> = 8..16;
const FIGURE_ONE: Range<usize> = 16..24;
const TWO_FIGURES: Range<usize> = 16..32;
const FOUR_FIGURES: Range<usize> = 16..48;

impl Event {
    /// The event of these bytes; none if they fail question 6.
    pub fn read(bytes: &[u8]) -> Option<Event> {
        if bytes.len() != 48 {
            return None;
        }
        match bytes[0] {
            1 => limit(bytes),
            2 => balance(bytes),
            3 => block(bytes),
            4 => new(bytes),
            5..=7 => of_an_order(bytes),
            _ => None,
        }
    }
}

fn limit(bytes: &[u8]) -> Option<Event> {
    let (account, item) = (account(bytes), item(bytes));
    let (line, figures) = match bytes[6] {
        1 => (
            Line::Own {
                account,
                instrument: item,
            },
            FOUR_FIGURES,
        ),
        2 => (
            Line::Default {
                account,
                contract: item,
            },
            FOUR_FIGURES,
        ),
        3 => (
            Line::Group {
                account,
                group: item,
            },
            TWO_FIGURES,
        ),
        _ => return None,
    };
    names_only(bytes, &[ACCOUNT, ITEM, LEVEL, figures])?;
    Some(Event::Limit {
        line,
        figures: [1, 2, 3, 4].map(|place| figure(bytes, place)),
    })
}

fn balance(bytes: &[u8]) -> Option<Event> {
    names_only(bytes, &[ACCOUNT, ITEM, FIGURE_ONE])?;
    Some(Event::Balance {
        account: account(bytes),
        instrument: item(bytes),
        figure: figure(bytes, 1),
    })
}

fn block(bytes: &[u8]) -> Option<Event> {
    let (account, item) = (account(bytes), item(bytes));
    let block = match bytes[6] {
        1 => {
            names_only(bytes, &[ACCOUNT, LEVEL, FIGURE_ONE])?;
            Block::Account(account)
        }
        2 => {
            names_only(bytes, &[ITEM, LEVEL, FIGURE_ONE])?;
            Block::Instrument(item)
        }
        3 => {
            names_only(bytes, &[ACCOUNT, ITEM, LEVEL, FIGURE_ONE])?;
            Block::Group {
                account,
                group: item,
            }
        }
        _ => return None,
    };
    Some(Event::Block {
        block,
        figure: figure(bytes, 1),
    })
}

fn new(bytes: &[u8]) -> Option<Event> {
    let side = match bytes[1] {
        1 => Side::Buy,
        2 => Side::Sell,
        _ => return None,
    };
    names_only(bytes, &[SIDE, ACCOUNT, ITEM, ID, FIGURE_ONE])?;
    Some(Event::New {
        side,
        account: account(bytes),
        instrument: item(bytes),
        id: id(bytes)?,
        quantity: figure(bytes, 1),
    })
}

fn of_an_order(bytes: &[u8]) -> Option<Event> {
    let id = id(bytes)?;
    if bytes[0] == 6 {
        names_only(bytes, &[ID])?;
        return Some(Event::Cancel { id });
    }
    names_only(bytes, &[ID, FIGURE_ONE])?;
    let figure = figure(bytes, 1);
    Some(match bytes[0] {
        5 => Event::Replace { id, total: figure },
        _ => Event::Fill {
            id,
            quantity: figure,
        },
    })
}

/// Some if every byte outside the kind and the named fields is zero.
fn names_only(bytes: &[u8], named: &[Range<usize>]) -> Option<()> {
    let is_named =
        |place: usize| KIND.contains(&place) || named.iter().any(|field| field.contains(&place));
    bytes
        .iter()
        .enumerate()
        .all(|(place, &byte)| byte == 0 || is_named(place))
        .then_some(())
}

fn account(bytes: &[u8]) -> u16 {
    u16::from_le_bytes([bytes[2], bytes[3]])
}

fn item(bytes: &[u8]) -> u16 {
    u16::from_le_bytes([bytes[4], bytes[5]])
}

/// A named id, which is not zero.
fn id(bytes: &[u8]) -> Option<u64> {
    let id = u64::from_le_bytes(eight(&bytes[ID]));
    (id != 0).then_some(id)
}

fn figure(bytes: &[u8], place: usize) -> i64 {
    i64::from_le_bytes(eight(&bytes[8 + 8 * place..16 + 8 * place]))
}

fn eight(bytes: &[u8]) -> [u8; 8] {
    bytes.try_into().expect("eight bytes")
}
