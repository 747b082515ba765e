//! When a memory holds a sound desk: document 01's list and the layout's own conditions, each by
//! itself.

use std::collections::BTreeSet;
use std::ops::Range;

use days::plain::Line;
use reference::roster::Sizes;
use reference::Side;

use super::{figures_of, lines, places, Field, Part, Words};

const LARGEST_WEIGHT: u64 = 1_000_000;
const LARGEST_LIMIT: u64 = 1_000_000_000;
const LARGEST_TOTAL: u64 = 1_000_000;
const LARGEST_POSITION: i128 = 1_000_000_000;

/// What a sound desk has to keep. That B and V equal the orders' sums is kept by every memory, for
/// neither is stored.
#[derive(Clone, Copy, PartialEq, Eq, PartialOrd, Ord, Debug)]
pub enum Clause {
    /// The layout's: the kind of desk is 1.
    Kind,
    /// The layout's: at most 256 orders are open.
    Count,
    /// The layout's: at most 256 records stand before the first in use.
    First,
    /// The layout's: no id is below the one in the record before. With ids that differ and are
    /// not 0, they ascend strictly.
    IdsAscend,
    /// The layout's: the figures of a line that is not set are in range too.
    UnsetLine,
    Sizes,
    GroupOfContract,
    ContractOfInstrument,
    Weight,
    OwnLine,
    DefaultLine,
    GroupLine,
    OrderAccount,
    OrderInstrument,
    OrderTotal,
    IdsNonZero,
    IdsDiffer,
    Remaining,
    /// S + B is at most 1,000,000,000.
    Long,
    /// −S + V is at most 1,000,000,000.
    Short,
    /// Every account with an open order is marked as trading.
    Trading,
}

impl Clause {
    pub const ALL: [Clause; 21] = [
        Clause::Kind,
        Clause::Count,
        Clause::First,
        Clause::IdsAscend,
        Clause::UnsetLine,
        Clause::Sizes,
        Clause::GroupOfContract,
        Clause::ContractOfInstrument,
        Clause::Weight,
        Clause::OwnLine,
        Clause::DefaultLine,
        Clause::GroupLine,
        Clause::OrderAccount,
        Clause::OrderInstrument,
        Clause::OrderTotal,
        Clause::IdsNonZero,
        Clause::IdsDiffer,
        Clause::Remaining,
        Clause::Long,
        Clause::Short,
        Clause::Trading,
    ];
}

/// The clauses asked of a memory that it breaks.
#[derive(Default)]
struct Asked {
    broken: BTreeSet<Clause>,
}

impl Asked {
    fn ask(&mut self, clause: Clause, kept: bool) {
        if !kept {
            self.broken.insert(clause);
        }
    }
}

impl Words<'_> {
    /// The clauses that the memory breaks; a sound desk breaks none. Where sizes, first or count are
    /// past their limits, what hangs on them is not asked.
    pub fn broken(&self) -> BTreeSet<Clause> {
        let mut asked = Asked::default();
        asked.ask(Clause::Kind, self.get(Field::Kind) == 1);
        asked.ask(Clause::Count, self.count().is_some());
        asked.ask(Clause::First, self.first().is_some());
        asked.ask(Clause::Sizes, self.sizes().is_some());
        if let Some(sizes) = self.sizes() {
            self.ask_roster(sizes, &mut asked);
            for line in lines(sizes) {
                asked.ask(self.line_clause(line), self.line_is_in_range(line));
            }
            if let Some(records) = self.records() {
                self.ask_ids(records.clone(), &mut asked);
                for record in records.clone() {
                    self.ask_order(sizes, record, &mut asked);
                }
                self.ask_positions(sizes, records, &mut asked);
            }
        }
        asked.broken
    }

    fn ask_roster(&self, sizes: Sizes, asked: &mut Asked) {
        for contract in 1..=sizes.contracts {
            let group = self.get(Field::GroupOf(contract));
            asked.ask(Clause::GroupOfContract, is_number(group, sizes.groups));
        }
        for instrument in 1..=sizes.instruments {
            let contract = self.get(Field::ContractOf(instrument));
            let named = is_number(contract, sizes.contracts);
            asked.ask(Clause::ContractOfInstrument, named);
            let weight = self.signed(Field::Weight(instrument)).unsigned_abs();
            asked.ask(Clause::Weight, weight <= LARGEST_WEIGHT);
        }
    }

    /// The clause that a line's figures are under.
    pub fn line_clause(&self, line: Line) -> Clause {
        match line {
            _ if !self.is(Field::Set(line)) => Clause::UnsetLine,
            Line::Own { .. } => Clause::OwnLine,
            Line::Default { .. } => Clause::DefaultLine,
            Line::Group { .. } => Clause::GroupLine,
        }
    }

    fn line_is_in_range(&self, line: Line) -> bool {
        (0..figures_of(line)).all(|place| self.get(Field::Figure(line, place)) <= LARGEST_LIMIT)
    }

    fn ask_ids(&self, records: Range<usize>, asked: &mut Asked) {
        let id = |record| self.get(Field::Order(record, Part::Id));
        let ids: Vec<u64> = records.map(id).collect();
        let different: BTreeSet<u64> = ids.iter().copied().collect();
        asked.ask(Clause::IdsNonZero, !different.contains(&0));
        asked.ask(Clause::IdsDiffer, different.len() == ids.len());
        asked.ask(Clause::IdsAscend, ids.is_sorted());
    }

    fn ask_order(&self, sizes: Sizes, record: usize, asked: &mut Asked) {
        let order = self.detail(record);
        let on_roster = order.account <= sizes.accounts;
        let marked = !on_roster || self.is(Field::Mark(order.account));
        let total_in_range = (1..=LARGEST_TOTAL).contains(&order.total());
        asked.ask(Clause::OrderAccount, on_roster);
        asked.ask(Clause::Trading, marked);
        asked.ask(
            Clause::OrderInstrument,
            order.instrument <= sizes.instruments,
        );
        asked.ask(Clause::OrderTotal, total_in_range);
        asked.ask(Clause::Remaining, order.remaining >= 1);
    }

    /// S + B and −S + V of every account and instrument. An order off the roster is in no sum.
    fn ask_positions(&self, sizes: Sizes, records: Range<usize>, asked: &mut Asked) {
        let balance = |(account, instrument)| i128::from(self.balance(account, instrument));
        let mut long: Vec<i128> = places(sizes).map(balance).collect();
        let mut short: Vec<i128> = long.iter().map(|balance| -balance).collect();
        for record in records {
            let order = self.detail(record);
            let sums = match order.side {
                Side::Buy => &mut long,
                Side::Sell => &mut short,
            };
            if order.account <= sizes.accounts && order.instrument <= sizes.instruments {
                let place = (order.account - 1) * sizes.instruments + order.instrument - 1;
                sums[usize::from(place)] += i128::from(order.remaining);
            }
        }
        let in_range = |sums: Vec<i128>| sums.into_iter().all(|sum| sum <= LARGEST_POSITION);
        asked.ask(Clause::Long, in_range(long));
        asked.ask(Clause::Short, in_range(short));
    }
}

/// From 1 to the most.
fn is_number(number: u64, most: u16) -> bool {
    (1..=u64::from(most)).contains(&number)
}
