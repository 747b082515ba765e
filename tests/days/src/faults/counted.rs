//! Positions counted wrongly.

use reference::{Desk, Order, Side};

use super::{free_id, judged};
use crate::plain::Event;

/// Fills every open order but the one judged, so that S becomes S + B − V.
pub fn netted(desk: &mut Desk, event: &Event) {
    if let Some(judged) = judged(desk, event) {
        let others = |order: &&Order| order.id != judged.id;
        for order in desk.book.orders.iter().filter(others) {
            let balance = &mut desk.book.balances[order.account][order.instrument];
            let remaining = (order.total - order.filled) as i64;
            *balance += if order.side == Side::Buy {
                remaining
            } else {
                -remaining
            };
        }
        desk.book.orders.retain(|order| order.id == judged.id);
    }
}

pub fn unsigned(desk: &mut Desk, _: &Event) {
    for account in 1..=desk.roster.accounts {
        for instrument in 1..=desk.roster.instruments() {
            let balance = &mut desk.book.balances[account][instrument];
            *balance = i64::from(*balance as u16);
        }
    }
}

pub fn weights_without_sign(desk: &mut Desk, _: &Event) {
    for weight in &mut desk.roster.weight {
        *weight = weight.abs();
    }
}

pub fn zero_weight_moves(desk: &mut Desk, _: &Event) {
    for weight in &mut desk.roster.weight {
        *weight = if *weight == 0 { 1 } else { *weight };
    }
}

/// Counts the order as it was beside the order as it will be.
pub fn replace_counted_twice(desk: &mut Desk, event: &Event) {
    if let Event::Replace { id, .. } = *event {
        let before = desk.book.order(id).copied();
        let id = free_id(desk);
        desk.book
            .orders
            .extend(before.map(|order| Order { id, ..order }));
    }
}

/// Counts what is filled as though it were still open.
pub fn filled_counted(desk: &mut Desk, event: &Event) {
    if let Event::Replace { id, .. } = *event {
        let before = desk
            .book
            .order(id)
            .copied()
            .filter(|order| order.filled > 0);
        let id = free_id(desk);
        let filled = |order: Order| Order {
            id,
            total: order.filled,
            filled: 0,
            ..order
        };
        desk.book.orders.extend(before.map(filled));
    }
}

pub fn orders_forgotten(desk: &mut Desk, event: &Event) {
    if let Some(judged) = judged(desk, event) {
        desk.book.orders.retain(|order| order.id == judged.id);
    }
}

pub fn orders_of_all_accounts(desk: &mut Desk, event: &Event) {
    if let Some(judged) = judged(desk, event) {
        for order in &mut desk.book.orders {
            order.account = judged.account;
            desk.trading[judged.account] = true;
        }
    }
}

/// Leaves out the balances of other instruments that lessen the group's position.
pub fn not_netted_in_group(desk: &mut Desk, event: &Event) {
    let Some(judged) = judged(desk, event) else {
        return;
    };
    let weight = desk.roster.weight_of_instrument(judged.instrument);
    let long = (judged.side == Side::Buy) == (weight > 0);
    let group = desk.roster.group_of_instrument(judged.instrument);
    for instrument in desk.roster.instruments_of_group(group) {
        let balance = &mut desk.book.balances[judged.account][instrument];
        let part = desk.roster.weight_of_instrument(instrument) * *balance;
        if instrument != judged.instrument && part != 0 && (part < 0) == long {
            *balance = 0;
        }
    }
}

pub fn balance_while_trading(desk: &mut Desk, event: &Event) {
    if let Event::Balance { .. } = event {
        desk.book.orders.clear();
        for account in 1..=desk.roster.accounts {
            desk.trading[account] = false;
        }
    }
}
