//! A desk's memory by its documented layout: 8,192 little-endian words of 64 bits, read into the
//! second implementation's data.
//!
//! Written from the table in `crates/memory_layout/specs/Layout.antt`. It shares no code with the gate.

mod detail;
mod field;
mod sound;

use std::ops::Range;

use days::plain::{Block, Line};
use reference::roster::Sizes;
use reference::{Book, Desk, GroupLine, Order, Roster, MEMORY};

pub use detail::Detail;
pub use field::{Field, Part, PARTS, WORDS};
pub use sound::Clause;

use field::{blocks, fields, figures_of, lines, places, RECORDS};

/// The words of a memory that is long enough.
#[derive(Clone, Copy)]
pub struct Words<'a>(&'a [u8]);

impl<'a> Words<'a> {
    /// The words of a memory, if it is long enough.
    pub fn of(memory: &'a [u8]) -> Option<Words<'a>> {
        memory.get(..MEMORY).map(Words)
    }

    pub fn get(&self, field: Field) -> u64 {
        let bytes = &self.0[field.bytes()];
        let number = bytes.iter().rev();
        number.fold(0, |number, byte| number << 8 | u64::from(*byte))
    }

    /// The word at a place.
    pub fn at(&self, word: usize) -> u64 {
        let bytes = self.0[8 * word..8 * word + 8].try_into();
        u64::from_le_bytes(bytes.expect("eight bytes"))
    }

    /// A word that is not 0 means yes.
    fn is(&self, field: Field) -> bool {
        self.get(field) != 0
    }

    /// A word in two's complement.
    fn signed(&self, field: Field) -> i64 {
        self.get(field) as i64
    }

    fn balance(&self, account: u16, instrument: u16) -> i64 {
        self.signed(Field::Balance {
            account,
            instrument,
        })
    }

    /// A word that is to be a number of the roster, if 16 bits hold it.
    fn number(&self, field: Field) -> Option<u16> {
        u16::try_from(self.get(field)).ok()
    }

    /// The sizes of the roster, if they are within their limits.
    pub fn sizes(&self) -> Option<Sizes> {
        let size = |field, most| Some(self.number(field)?).filter(|size| (1..=most).contains(size));
        Some(Sizes {
            accounts: size(Field::Accounts, 16)?,
            groups: size(Field::Groups, 4)?,
            contracts: size(Field::Contracts, 8)?,
            instruments: size(Field::Instruments, 32)?,
        })
    }

    /// How many orders are open, if there are records for them.
    pub fn count(&self) -> Option<usize> {
        let count = usize::try_from(self.get(Field::Count)).ok()?;
        Some(count).filter(|&count| count <= RECORDS)
    }

    /// Which record is the first in use, if there are records from it on.
    pub fn first(&self) -> Option<usize> {
        let first = usize::try_from(self.get(Field::First)).ok()?;
        Some(first).filter(|&first| first <= RECORDS)
    }

    /// The records in use, if the first and the count are within their limits.
    pub fn records(&self) -> Option<Range<usize>> {
        let first = self.first()?;
        Some(first..first + self.count()?)
    }

    /// Every word that has a meaning, if sizes, first and count are within their limits.
    pub fn fields(&self) -> Option<Vec<Field>> {
        Some(fields(self.sizes()?, self.records()?))
    }

    /// Every other word: spare ones, places off the roster, records not in use.
    pub fn without_meaning(&self) -> Option<Vec<usize>> {
        let mut meaning = [false; WORDS];
        for field in self.fields()? {
            meaning[field.word()] = true;
        }
        Some((0..WORDS).filter(|&word| !meaning[word]).collect())
    }

    /// The desk that the words say, sound or not. None where the second implementation's data has
    /// no room for it: another kind of desk, sizes, first or count past their limits, numbers of
    /// groups or contracts past 16 bits.
    pub fn desk(&self) -> Option<Desk> {
        if self.get(Field::Kind) != 1 {
            return None;
        }
        let sizes = self.sizes()?;
        let mut desk = Desk::new(self.roster(sizes)?);
        for account in 1..=sizes.accounts {
            desk.trading[account] = self.is(Field::Mark(account));
        }
        for (account, instrument) in places(sizes) {
            desk.book.balances[account][instrument] = self.balance(account, instrument);
        }
        for block in blocks(sizes) {
            self.read_block(block, &mut desk.book);
        }
        for line in lines(sizes).filter(|&line| self.is(Field::Set(line))) {
            self.read_line(line, &mut desk.book);
        }
        let orders = self.records()?.map(|record| self.order(record));
        desk.book.orders = orders.collect();
        Some(desk)
    }

    fn roster(&self, sizes: Sizes) -> Option<Roster> {
        let group_of = (1..=sizes.contracts).map(|contract| self.number(Field::GroupOf(contract)));
        let contract_of = (1..=sizes.instruments).map(|i| self.number(Field::ContractOf(i)));
        let weight = (1..=sizes.instruments).map(|i| self.signed(Field::Weight(i)));
        Some(Roster {
            accounts: sizes.accounts,
            groups: sizes.groups,
            group_of_contract: group_of.collect::<Option<_>>()?,
            contract_of: contract_of.collect::<Option<_>>()?,
            weight: weight.collect(),
        })
    }

    fn read_block(&self, block: Block, book: &mut Book) {
        let on = self.is(Field::Block(block));
        match block {
            Block::Account(account) => book.blocked_accounts[account] = on,
            Block::Instrument(instrument) => book.blocked_instruments[instrument] = on,
            Block::Group { account, group } => book.blocked_groups[account][group] = on,
        }
    }

    /// Reads a line that is set.
    fn read_line(&self, line: Line, book: &mut Book) {
        let figure = |place| self.signed(Field::Figure(line, place));
        let four = || reference::Line {
            tci: figure(0),
            tvi: figure(1),
            lci: figure(2),
            lvi: figure(3),
        };
        match line {
            Line::Own {
                account,
                instrument,
            } => book.own_lines[account][instrument] = Some(four()),
            Line::Default { account, contract } => {
                book.default_lines[account][contract] = Some(four());
            }
            Line::Group { account, group } => {
                let (lcc, lvc) = (figure(0), figure(1));
                book.group_lines[account][group] = Some(GroupLine { lcc, lvc });
            }
        }
    }

    /// All but the id of the order in a record.
    pub fn detail(&self, record: usize) -> Detail {
        Detail::of(self.get(Field::Order(record, Part::Detail)))
    }

    fn order(&self, record: usize) -> Order {
        let detail = self.detail(record);
        Order {
            id: self.get(Field::Order(record, Part::Id)),
            account: detail.account,
            instrument: detail.instrument,
            side: detail.side,
            total: detail.total(),
            filled: detail.filled,
        }
    }
}
