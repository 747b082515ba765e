//! When a desk is sound.

use std::collections::BTreeSet;

use crate::book::{GroupLine, Line, PerAccount};
use crate::desk::Desk;
use crate::numbered::Numbered;
use crate::order::{Order, Side};
use crate::positions;
use crate::questions::{LIMITS, MOST_ORDERS, QUANTITIES};

/// What S + B and −S + V may at most be.
const LARGEST_POSITION: i128 = 1_000_000_000;

impl Desk {
    /// Document 01's list. That B and V equal the orders' sums is true by their definition here.
    pub fn is_sound(&self) -> bool {
        self.roster_would_be_accepted()
            && self.lines_are_in_range()
            && self.orders_are_in_range()
            && self.ids_are_non_zero_and_differ()
            && self.every_remaining_is_at_least_1()
            && self.positions_are_in_range()
            && self.every_account_with_an_order_is_trading()
    }

    fn roster_would_be_accepted(&self) -> bool {
        self.roster.sizes().are_within_limits()
            && self.roster.names_only_what_it_has()
            && self.roster.has_every_weight_in_range()
    }

    fn lines_are_in_range(&self) -> bool {
        let line = |line: &Line| {
            let figures = [line.tci, line.tvi, line.lci, line.lvi];
            figures.iter().all(|figure| LIMITS.contains(figure))
        };
        let group_line = |line: &GroupLine| {
            let figures = [line.lcc, line.lvc];
            figures.iter().all(|figure| LIMITS.contains(figure))
        };
        every_set(&self.book.own_lines, line)
            && every_set(&self.book.default_lines, line)
            && every_set(&self.book.group_lines, group_line)
    }

    fn orders_are_in_range(&self) -> bool {
        let in_range = |order: &Order| {
            self.roster.has_account(order.account)
                && self.roster.has_instrument(order.instrument)
                && i64::try_from(order.total).is_ok_and(|total| QUANTITIES.contains(&total))
        };
        self.book.orders.len() <= MOST_ORDERS && self.book.orders.iter().all(in_range)
    }

    fn ids_are_non_zero_and_differ(&self) -> bool {
        let ids: BTreeSet<u64> = self.book.orders.iter().map(|order| order.id).collect();
        !ids.contains(&0) && ids.len() == self.book.orders.len()
    }

    fn every_remaining_is_at_least_1(&self) -> bool {
        let orders = &self.book.orders;
        orders.iter().all(|order| order.filled < order.total)
    }

    /// S + B and −S + V are at most 1,000,000,000. Each begins as S or −S, and every order adds to
    /// one of them what remains of it.
    fn positions_are_in_range(&self) -> bool {
        let none = Numbered::of(self.roster.instruments(), 0i128);
        let mut long = Numbered::of(self.roster.accounts, none);
        let mut short = long.clone();
        for account in 1..=self.roster.accounts {
            for instrument in 1..=self.roster.instruments() {
                let balance = positions::balance(&self.book, account, instrument);
                long[account][instrument] = balance;
                short[account][instrument] = -balance;
            }
        }
        for order in &self.book.orders {
            let moved = match order.side {
                Side::Buy => &mut long,
                Side::Sell => &mut short,
            };
            moved[order.account][order.instrument] += i128::from(order.remaining());
        }
        let in_range = |position: &i128| *position <= LARGEST_POSITION;
        long.iter().flat_map(Numbered::iter).all(in_range)
            && short.iter().flat_map(Numbered::iter).all(in_range)
    }

    fn every_account_with_an_order_is_trading(&self) -> bool {
        let orders = &self.book.orders;
        orders.iter().all(|order| self.trading[order.account])
    }
}

/// Every line that is set is in range.
fn every_set<T>(lines: &PerAccount<Option<T>>, in_range: impl Fn(&T) -> bool) -> bool {
    lines
        .iter()
        .flat_map(Numbered::iter)
        .flatten()
        .all(in_range)
}
