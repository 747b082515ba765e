//! Which bytes each field of a desk is.

use std::ops::Range;

use days::plain::{Block, Line};
use reference::roster::Sizes;

/// How many words a desk's memory has.
pub const WORDS: usize = 8_192;

/// How many order records can be in use, and how many can stand before the first of them.
pub const RECORDS: usize = 256;

/// How many words a record has.
const RECORD: usize = 2;

/// The widths of the tables by account and contract, instrument or group.
const INSTRUMENTS: usize = 32;
const CONTRACTS: usize = 8;
const GROUPS: usize = 4;

/// A word of an order's record.
#[derive(Clone, Copy, PartialEq, Eq, Debug)]
pub enum Part {
    Id,
    /// All but the id.
    Detail,
}

/// The parts of a record, in the order of its words.
pub const PARTS: [Part; RECORD] = [Part::Id, Part::Detail];

/// A word that has a meaning, or of a line's words half of one. Accounts, groups, contracts and
/// instruments are numbered from 1; records and the figures of a line are counted from 0.
#[derive(Clone, Copy, PartialEq, Eq, Debug)]
pub enum Field {
    /// The kind of desk.
    Kind,
    Accounts,
    Groups,
    Contracts,
    Instruments,
    /// The group of a contract.
    GroupOf(u16),
    /// The contract of an instrument.
    ContractOf(u16),
    /// The weight of an instrument.
    Weight(u16),
    /// How many orders are open.
    Count,
    /// Which record is the first in use.
    First,
    /// The trading mark of an account.
    Mark(u16),
    Block(Block),
    Balance {
        account: u16,
        instrument: u16,
    },
    /// Whether a line is set.
    Set(Line),
    Figure(Line, usize),
    Order(usize, Part),
}

impl Field {
    /// The bytes of the field: four of a figure, else a word's.
    pub fn bytes(self) -> Range<usize> {
        let (first, size) = match self {
            Field::Figure(line, place) => (8 * line_word(line) + 4 * place, 4),
            _ => (8 * self.word(), 8),
        };
        first..first + size
    }

    /// The place among the words of the word that the field is, or is half of.
    pub fn word(self) -> usize {
        match self {
            Field::Kind => 0,
            Field::Accounts => 1,
            Field::Groups => 2,
            Field::Contracts => 3,
            Field::Instruments => 4,
            Field::GroupOf(contract) => numbered(5, contract),
            Field::ContractOf(instrument) => numbered(13, instrument),
            Field::Weight(instrument) => numbered(45, instrument),
            Field::Count => 112,
            Field::First => 113,
            Field::Mark(account) => numbered(128, account),
            Field::Block(block) => block_word(block),
            Field::Balance {
                account,
                instrument,
            } => 256 + row(account, INSTRUMENTS, instrument),
            Field::Set(line) => set_word(line),
            Field::Figure(line, place) => line_word(line) + place / 2,
            Field::Order(record, part) => 4_224 + record * RECORD + part as usize,
        }
    }
}

/// The word of a number in a list that begins at word `first`.
fn numbered(first: usize, number: u16) -> usize {
    first + usize::from(number) - 1
}

/// The place of an account's number in a table by account, so many numbers to an account.
fn row(account: u16, numbers: usize, number: u16) -> usize {
    numbered(0, account) * numbers + numbered(0, number)
}

fn block_word(block: Block) -> usize {
    match block {
        Block::Account(account) => numbered(144, account),
        Block::Instrument(instrument) => numbered(160, instrument),
        Block::Group { account, group } => 192 + row(account, GROUPS, group),
    }
}

fn set_word(line: Line) -> usize {
    match line {
        Line::Own {
            account,
            instrument,
        } => 768 + row(account, INSTRUMENTS, instrument),
        Line::Default { account, contract } => 1_280 + row(account, CONTRACTS, contract),
        Line::Group { account, group } => 1_408 + row(account, GROUPS, group),
    }
}

/// The first word of a line. An account's lines are a row of words: two for each instrument, two
/// for each contract, one for each group.
fn line_word(line: Line) -> usize {
    let (account, place) = match line {
        Line::Own {
            account,
            instrument,
        } => (account, 2 * numbered(0, instrument)),
        Line::Default { account, contract } => (account, 64 + 2 * numbered(0, contract)),
        Line::Group { account, group } => (account, 80 + numbered(0, group)),
    };
    1_536 + 84 * numbered(0, account) + place
}

/// How many figures a line has.
pub fn figures_of(line: Line) -> usize {
    match line {
        Line::Own { .. } | Line::Default { .. } => 4,
        Line::Group { .. } => 2,
    }
}

/// Every line of a roster.
pub fn lines(sizes: Sizes) -> impl Iterator<Item = Line> {
    (1..=sizes.accounts).flat_map(move |account| {
        let own = (1..=sizes.instruments).map(move |instrument| Line::Own {
            account,
            instrument,
        });
        let default =
            (1..=sizes.contracts).map(move |contract| Line::Default { account, contract });
        let group = (1..=sizes.groups).map(move |group| Line::Group { account, group });
        own.chain(default).chain(group)
    })
}

/// Every block of a roster.
pub fn blocks(sizes: Sizes) -> impl Iterator<Item = Block> {
    let accounts = (1..=sizes.accounts).map(Block::Account);
    let instruments = (1..=sizes.instruments).map(Block::Instrument);
    let groups = (1..=sizes.accounts).flat_map(move |account| {
        (1..=sizes.groups).map(move |group| Block::Group { account, group })
    });
    accounts.chain(instruments).chain(groups)
}

/// Every account with every instrument.
pub fn places(sizes: Sizes) -> impl Iterator<Item = (u16, u16)> {
    (1..=sizes.accounts).flat_map(move |account| {
        (1..=sizes.instruments).map(move |instrument| (account, instrument))
    })
}

/// Every field of a desk with a roster of these sizes, all within their limits, and these records
/// in use.
pub fn fields(sizes: Sizes, records: Range<usize>) -> Vec<Field> {
    let mut fields = vec![
        Field::Kind,
        Field::Accounts,
        Field::Groups,
        Field::Contracts,
        Field::Instruments,
        Field::Count,
        Field::First,
    ];
    fields.extend((1..=sizes.contracts).map(Field::GroupOf));
    fields.extend((1..=sizes.instruments).flat_map(|i| [Field::ContractOf(i), Field::Weight(i)]));
    fields.extend((1..=sizes.accounts).map(Field::Mark));
    fields.extend(blocks(sizes).map(Field::Block));
    fields.extend(places(sizes).map(|(account, instrument)| Field::Balance {
        account,
        instrument,
    }));
    for line in lines(sizes) {
        fields.push(Field::Set(line));
        fields.extend((0..figures_of(line)).map(|place| Field::Figure(line, place)));
    }
    for record in records {
        fields.extend(PARTS.map(|part| Field::Order(record, part)));
    }
    fields
}
