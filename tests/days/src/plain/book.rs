//! The plain book and what an accepted event does to it.

use std::collections::{BTreeMap, BTreeSet};

use super::{Block, Event, Line, Roster, Side};

#[derive(Clone, Copy, PartialEq, Eq, Debug)]
pub struct Order {
    pub id: u64,
    pub account: u16,
    pub instrument: u16,
    pub side: Side,
    pub total: i64,
    pub filled: i64,
}

impl Order {
    pub fn remaining(&self) -> i64 {
        self.total - self.filled
    }

    /// What a fill by `quantity` adds to S.
    pub fn moved(&self, quantity: i64) -> i64 {
        match self.side {
            Side::Buy => quantity,
            Side::Sell => -quantity,
        }
    }
}

/// S of each account and instrument; 0 where none is kept.
pub type Balances = BTreeMap<(u16, u16), i64>;

/// Document 01's plain book. It begins with balances 0 and no line, block or open order.
#[derive(Clone, PartialEq, Eq, Debug)]
pub struct Book {
    pub roster: Roster,
    pub balances: Balances,
    /// The lines that are set. A group's line holds LCC, LVC and two zeros.
    pub lines: BTreeMap<Line, [i64; 4]>,
    pub blocks: BTreeSet<Block>,
    pub orders: Vec<Order>,
}

impl Book {
    pub fn new(roster: Roster) -> Book {
        Book {
            roster,
            balances: BTreeMap::new(),
            lines: BTreeMap::new(),
            blocks: BTreeSet::new(),
            orders: Vec::new(),
        }
    }

    pub fn balance(&self, account: u16, instrument: u16) -> i64 {
        self.balances
            .get(&(account, instrument))
            .copied()
            .unwrap_or(0)
    }

    pub fn order(&self, id: u64) -> Option<&Order> {
        self.orders.iter().find(|order| order.id == id)
    }

    /// The name of the line in force: the instrument's own where set, else the default of its
    /// contract, set or not.
    pub fn line_in_force(&self, account: u16, instrument: u16) -> Line {
        let own = Line::Own {
            account,
            instrument,
        };
        match self.lines.contains_key(&own) {
            true => own,
            false => Line::Default {
                account,
                contract: self.roster.contract(instrument),
            },
        }
    }

    /// Does what an accepted event does. False if there is no such order to do it to.
    pub fn work(&mut self, event: &Event) -> bool {
        match *event {
            Event::Limit { line, figures } => self.set_line(line, figures),
            Event::Balance {
                account,
                instrument,
                figure,
            } => {
                self.balances.insert((account, instrument), figure);
            }
            Event::Block { block, figure: 0 } => {
                self.blocks.remove(&block);
            }
            Event::Block { block, .. } => {
                self.blocks.insert(block);
            }
            Event::New {
                side,
                account,
                instrument,
                id,
                quantity,
            } => {
                let order = Order {
                    id,
                    account,
                    instrument,
                    side,
                    total: quantity,
                    filled: 0,
                };
                self.orders.push(order);
            }
            Event::Replace { id, total } => return self.replace(id, total),
            Event::Cancel { id } => return self.cancel(id),
            Event::Fill { id, quantity } => return self.fill(id, quantity),
        }
        true
    }

    fn set_line(&mut self, line: Line, figures: [i64; 4]) {
        let named = if matches!(line, Line::Group { .. }) {
            2
        } else {
            4
        };
        if figures[..named].iter().all(|&figure| figure == -1) {
            self.lines.remove(&line);
        } else {
            self.lines.insert(line, figures);
        }
    }

    fn replace(&mut self, id: u64, total: i64) -> bool {
        let Some(place) = self.place(id) else {
            return false;
        };
        self.orders[place].total = total;
        true
    }

    fn cancel(&mut self, id: u64) -> bool {
        let Some(place) = self.place(id) else {
            return false;
        };
        self.orders.remove(place);
        true
    }

    fn fill(&mut self, id: u64, quantity: i64) -> bool {
        let Some(place) = self.place(id) else {
            return false;
        };
        let order = &mut self.orders[place];
        order.filled += quantity;
        let kept = (order.account, order.instrument);
        *self.balances.entry(kept).or_insert(0) += order.moved(quantity);
        if order.remaining() == 0 {
            self.orders.remove(place);
        }
        true
    }

    fn place(&self, id: u64) -> Option<usize> {
        self.orders.iter().position(|order| order.id == id)
    }
}
