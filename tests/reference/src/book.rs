//! The plain book, and what an accepted event does to it.

use crate::event::{Blocked, Event, Item};
use crate::numbered::Numbered;
use crate::order::{Order, Side};
use crate::roster::Roster;

/// A line of four figures: an instrument's own, or a contract's default.
#[derive(Clone, Copy, PartialEq, Eq, Debug)]
pub struct Line {
    /// Largest buy TCI.
    pub tci: i64,
    /// Largest sell TVI.
    pub tvi: i64,
    /// Long limit LCI.
    pub lci: i64,
    /// Short limit LVI.
    pub lvi: i64,
}

/// A group's line.
#[derive(Clone, Copy, PartialEq, Eq, Debug)]
pub struct GroupLine {
    /// Long limit LCC.
    pub lcc: i64,
    /// Short limit LVC.
    pub lvc: i64,
}

/// One `T` for each account and each of its instruments, contracts or groups.
pub type PerAccount<T> = Numbered<Numbered<T>>;

#[derive(Clone, PartialEq, Eq, Debug)]
pub struct Book {
    /// S, by account and instrument.
    pub balances: PerAccount<i64>,
    /// The instruments' own lines, by account and instrument; `None` is not set.
    pub own_lines: PerAccount<Option<Line>>,
    /// The contracts' default lines, by account and contract.
    pub default_lines: PerAccount<Option<Line>>,
    /// The group lines, by account and group.
    pub group_lines: PerAccount<Option<GroupLine>>,
    pub blocked_accounts: Numbered<bool>,
    /// Instruments blocked for all accounts.
    pub blocked_instruments: Numbered<bool>,
    /// Groups blocked for an account, by account and group.
    pub blocked_groups: PerAccount<bool>,
    /// The open orders, ascending by id.
    pub orders: Vec<Order>,
}

impl Book {
    /// Balances 0 and no line, block or open order.
    pub fn new(roster: &Roster) -> Book {
        let accounts = roster.accounts;
        let groups = roster.groups;
        let contracts = roster.contracts();
        let instruments = roster.instruments();
        Book {
            balances: Numbered::of(accounts, Numbered::of(instruments, 0)),
            own_lines: Numbered::of(accounts, Numbered::of(instruments, None)),
            default_lines: Numbered::of(accounts, Numbered::of(contracts, None)),
            group_lines: Numbered::of(accounts, Numbered::of(groups, None)),
            blocked_accounts: Numbered::of(accounts, false),
            blocked_instruments: Numbered::of(instruments, false),
            blocked_groups: Numbered::of(accounts, Numbered::of(groups, false)),
            orders: Vec::new(),
        }
    }

    /// The open order with an id.
    pub fn order(&self, id: u64) -> Option<&Order> {
        self.orders.iter().find(|order| order.id == id)
    }

    /// The line in force: the instrument's own where set, else the default of its contract, whole.
    pub fn line_in_force(&self, roster: &Roster, account: u16, instrument: u16) -> Option<Line> {
        let contract = roster.contract_of_instrument(instrument);
        self.own_lines[account][instrument].or(self.default_lines[account][contract])
    }

    /// What an accepted event does.
    pub fn work(&mut self, event: &Event) {
        match *event {
            Event::Limit {
                account,
                item,
                ref figures,
            } => self.set_line(account, item, figures),
            Event::Balance {
                account,
                instrument,
                balance,
            } => self.balances[account][instrument] = balance,
            Event::Block { blocked, figure } => self.set_block(blocked, figure == 1),
            Event::New(new) => self.join(new.order()),
            Event::Replace { id, total } => self.open_order(id).total = total as u64,
            Event::Cancel { id } => self.leave(id),
            Event::Fill { id, quantity } => self.fill(id, quantity),
        }
    }

    /// The figures become that line; a line of −1 throughout is not set.
    fn set_line(&mut self, account: u16, item: Item, figures: &[i64]) {
        let unset = figures.iter().all(|&figure| figure == -1);
        let line = || Line {
            tci: figures[0],
            tvi: figures[1],
            lci: figures[2],
            lvi: figures[3],
        };
        let group_line = || GroupLine {
            lcc: figures[0],
            lvc: figures[1],
        };
        match item {
            Item::Instrument(instrument) => {
                self.own_lines[account][instrument] = (!unset).then(line);
            }
            Item::Contract(contract) => {
                self.default_lines[account][contract] = (!unset).then(line);
            }
            Item::Group(group) => self.group_lines[account][group] = (!unset).then(group_line),
        }
    }

    fn set_block(&mut self, blocked: Blocked, on: bool) {
        match blocked {
            Blocked::Account { account } => self.blocked_accounts[account] = on,
            Blocked::Instrument { instrument } => self.blocked_instruments[instrument] = on,
            Blocked::Group { account, group } => self.blocked_groups[account][group] = on,
        }
    }

    /// A buy raises S, a sell lowers it; at remaining 0 the order leaves.
    fn fill(&mut self, id: u64, quantity: i64) {
        let order = self.open_order(id);
        order.filled += quantity as u64;
        let order = *order;
        let balance = &mut self.balances[order.account][order.instrument];
        match order.side {
            Side::Buy => *balance += quantity,
            Side::Sell => *balance -= quantity,
        }
        if order.remaining() == 0 {
            self.leave(id);
        }
    }

    fn join(&mut self, order: Order) {
        self.orders.push(order);
        self.orders.sort_by_key(|order| order.id);
    }

    fn leave(&mut self, id: u64) {
        self.orders.retain(|order| order.id != id);
    }

    fn open_order(&mut self, id: u64) -> &mut Order {
        self.orders
            .iter_mut()
            .find(|order| order.id == id)
            .expect("an accepted id is open")
    }
}
