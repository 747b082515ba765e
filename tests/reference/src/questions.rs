//! The questions asked of an event, in document 01's order.

use std::ops::RangeInclusive;

use crate::book::{GroupLine, Line};
use crate::desk::Desk;
use crate::event::{Event, Item};
use crate::order::{Order, Side};
use crate::positions;

/// What a limit figure may be.
pub const LIMITS: RangeInclusive<i64> = 0..=1_000_000_000;
/// What a balance may be.
pub const BALANCES: RangeInclusive<i64> = -1_000_000_000..=1_000_000_000;
/// What a block's figure may be.
pub const BLOCKS: RangeInclusive<i64> = 0..=1;
/// What a quantity or total may be.
pub const QUANTITIES: RangeInclusive<i64> = 1..=1_000_000;
/// How many orders may be open.
pub const MOST_ORDERS: usize = 256;
/// Groups are counted in ten-thousandths.
pub const TEN_THOUSANDTHS: i128 = 10_000;

/// A question: true is yes. It is asked only where all before it were answered yes.
pub type Question = fn(&Desk, &Event) -> bool;

/// Questions 7 to 24, each with the number that a no gives.
pub const QUESTIONS: [(u8, Question); 18] = [
    (7, account_is_on_the_roster),
    (8, item_is_on_the_roster),
    (9, figures_are_in_range),
    (10, account_of_a_balance_is_not_yet_trading),
    (11, id_is_open),
    (12, quantity_fits_the_order),
    (13, new_id_is_not_open),
    (14, account_is_unblocked),
    (15, instrument_is_unblocked),
    (16, group_is_unblocked_for_the_account),
    (17, lines_are_set),
    (18, fewer_than_256_orders_are_open),
    (19, buy_is_at_most_tci),
    (20, sell_is_at_most_tvi),
    (21, pci_is_at_most_lci),
    (22, pvi_is_at_most_lvi),
    (23, pcc_is_within_lcc),
    (24, pvc_is_within_lvc),
];

/// The answer to any bytes as an event: the number of the first no, else 0. Where the lent memory
/// is too short there is no desk.
pub fn answer(desk: Option<&Desk>, bytes: &[u8]) -> u8 {
    // 5. Is the lent memory long enough, and does it hold a sound desk?
    let Some(desk) = desk.filter(|desk| desk.is_sound()) else {
        return 5;
    };
    // 6. Is the event well formed?
    let Some(event) = Event::read(bytes) else {
        return 6;
    };
    first_no(desk, &event)
}

/// The number of the first of questions 7 to 24 that is answered no, else 0.
pub fn first_no(desk: &Desk, event: &Event) -> u8 {
    let no = QUESTIONS
        .iter()
        .find(|(_, question)| !question(desk, event));
    no.map_or(0, |(number, _)| *number)
}

/// 7. Is a named account on the roster?
fn account_is_on_the_roster(desk: &Desk, event: &Event) -> bool {
    event
        .account()
        .is_none_or(|account| desk.roster.has_account(account))
}

/// 8. Is a named item on the roster?
fn item_is_on_the_roster(desk: &Desk, event: &Event) -> bool {
    match event.item() {
        None => true,
        Some(Item::Instrument(instrument)) => desk.roster.has_instrument(instrument),
        Some(Item::Contract(contract)) => desk.roster.has_contract(contract),
        Some(Item::Group(group)) => desk.roster.has_group(group),
    }
}

/// 9. Are the figures in range?
fn figures_are_in_range(_: &Desk, event: &Event) -> bool {
    match event {
        Event::Limit { figures, .. } => {
            figures.iter().all(|figure| LIMITS.contains(figure))
                || figures.iter().all(|&figure| figure == -1)
        }
        Event::Balance { balance, .. } => BALANCES.contains(balance),
        Event::Block { figure, .. } => BLOCKS.contains(figure),
        Event::New(new) => QUANTITIES.contains(&new.quantity),
        Event::Fill { quantity, .. } => QUANTITIES.contains(quantity),
        Event::Replace { total, .. } => QUANTITIES.contains(total),
        Event::Cancel { .. } => true,
    }
}

/// 10. BALANCE: is the account not yet trading?
fn account_of_a_balance_is_not_yet_trading(desk: &Desk, event: &Event) -> bool {
    match *event {
        Event::Balance { account, .. } => !desk.trading[account],
        _ => true,
    }
}

/// 11. REPLACE, CANCEL, FILL: is the id open?
fn id_is_open(desk: &Desk, event: &Event) -> bool {
    match *event {
        Event::Replace { id, .. } | Event::Cancel { id } | Event::Fill { id, .. } => {
            desk.book.order(id).is_some()
        }
        _ => true,
    }
}

/// 12. REPLACE: is the new total above what is filled? FILL: is it at most what remains?
fn quantity_fits_the_order(desk: &Desk, event: &Event) -> bool {
    match *event {
        Event::Replace { id, total } => desk
            .book
            .order(id)
            .is_some_and(|order| total as u64 > order.filled),
        Event::Fill { id, quantity } => desk
            .book
            .order(id)
            .is_some_and(|order| quantity as u64 <= order.remaining()),
        _ => true,
    }
}

/// The order that questions 14 to 24 are about, as the event would have it: a NEW's, or that of a
/// REPLACE whose total rises. Any other event passes them.
pub fn judged(desk: &Desk, event: &Event) -> Option<Order> {
    match *event {
        Event::New(new) => Some(new.order()),
        Event::Replace { id, total } => {
            let order = desk.book.order(id)?;
            let total = total as u64;
            (total > order.total).then_some(Order { total, ..*order })
        }
        _ => None,
    }
}

/// The judged order, if it is on this side.
fn judged_on(side: Side, desk: &Desk, event: &Event) -> Option<Order> {
    judged(desk, event).filter(|order| order.side == side)
}

/// The line in force for an order.
fn line(desk: &Desk, order: &Order) -> Option<Line> {
    let Desk { roster, book, .. } = desk;
    book.line_in_force(roster, order.account, order.instrument)
}

/// The group line for an order.
fn group_line(desk: &Desk, order: &Order) -> Option<GroupLine> {
    let group = desk.roster.group_of_instrument(order.instrument);
    desk.book.group_lines[order.account][group]
}

/// 13. NEW: is the id not open?
fn new_id_is_not_open(desk: &Desk, event: &Event) -> bool {
    match event {
        Event::New(new) => desk.book.order(new.id).is_none(),
        _ => true,
    }
}

/// 14. Is the account unblocked?
fn account_is_unblocked(desk: &Desk, event: &Event) -> bool {
    judged(desk, event).is_none_or(|order| !desk.book.blocked_accounts[order.account])
}

/// 15. Is the instrument unblocked?
fn instrument_is_unblocked(desk: &Desk, event: &Event) -> bool {
    judged(desk, event).is_none_or(|order| !desk.book.blocked_instruments[order.instrument])
}

/// 16. Is the group unblocked for this account?
fn group_is_unblocked_for_the_account(desk: &Desk, event: &Event) -> bool {
    judged(desk, event).is_none_or(|order| {
        let group = desk.roster.group_of_instrument(order.instrument);
        !desk.book.blocked_groups[order.account][group]
    })
}

/// 17. Are a line in force and the group line set?
fn lines_are_set(desk: &Desk, event: &Event) -> bool {
    judged(desk, event)
        .is_none_or(|order| line(desk, &order).is_some() && group_line(desk, &order).is_some())
}

/// 18. NEW: are fewer than 256 orders open?
fn fewer_than_256_orders_are_open(desk: &Desk, event: &Event) -> bool {
    match event {
        Event::New(_) => desk.book.orders.len() < MOST_ORDERS,
        _ => true,
    }
}

/// 19. Buy: is the total at most TCI?
fn buy_is_at_most_tci(desk: &Desk, event: &Event) -> bool {
    judged_on(Side::Buy, desk, event).is_none_or(|order| {
        line(desk, &order).is_some_and(|line| i128::from(order.total) <= i128::from(line.tci))
    })
}

/// 20. Sell: is it at most TVI?
fn sell_is_at_most_tvi(desk: &Desk, event: &Event) -> bool {
    judged_on(Side::Sell, desk, event).is_none_or(|order| {
        line(desk, &order).is_some_and(|line| i128::from(order.total) <= i128::from(line.tvi))
    })
}

/// 21. Buy: is PCI, with the event applied, at most LCI?
fn pci_is_at_most_lci(desk: &Desk, event: &Event) -> bool {
    judged_on(Side::Buy, desk, event).is_none_or(|order| {
        let applied = desk.book_with(event);
        let pci = positions::potential_long(&applied, order.account, order.instrument);
        line(desk, &order).is_some_and(|line| pci <= i128::from(line.lci))
    })
}

/// 22. Sell: is PVI at most LVI?
fn pvi_is_at_most_lvi(desk: &Desk, event: &Event) -> bool {
    judged_on(Side::Sell, desk, event).is_none_or(|order| {
        let applied = desk.book_with(event);
        let pvi = positions::potential_short(&applied, order.account, order.instrument);
        line(desk, &order).is_some_and(|line| pvi <= i128::from(line.lvi))
    })
}

/// 23. If it moves the group long: is PCC within LCC?
fn pcc_is_within_lcc(desk: &Desk, event: &Event) -> bool {
    let roster = &desk.roster;
    let moves = |order: &Order| {
        let weight = roster.weight_of_instrument(order.instrument);
        positions::moves_group_long(order.side, weight)
    };
    judged(desk, event).filter(moves).is_none_or(|order| {
        let group = roster.group_of_instrument(order.instrument);
        let applied = desk.book_with(event);
        let pcc = positions::group_long(roster, &applied, order.account, group);
        group_line(desk, &order).is_some_and(|line| pcc <= i128::from(line.lcc) * TEN_THOUSANDTHS)
    })
}

/// 24. If it moves the group short: is PVC within LVC?
fn pvc_is_within_lvc(desk: &Desk, event: &Event) -> bool {
    let roster = &desk.roster;
    let moves = |order: &Order| {
        let weight = roster.weight_of_instrument(order.instrument);
        positions::moves_group_short(order.side, weight)
    };
    judged(desk, event).filter(moves).is_none_or(|order| {
        let group = roster.group_of_instrument(order.instrument);
        let applied = desk.book_with(event);
        let pvc = positions::group_short(roster, &applied, order.account, group);
        group_line(desk, &order).is_some_and(|line| pvc <= i128::from(line.lvc) * TEN_THOUSANDTHS)
    })
}
