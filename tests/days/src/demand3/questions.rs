//! The questions before 21, asked of the plain book.

use std::collections::BTreeSet;

use crate::plain::{Block, Book, Event, Line, Order, Side};

const LARGEST_FIGURE: i64 = 1_000_000_000;
const LARGEST_QUANTITY: i64 = 1_000_000;
const MOST_OPEN: usize = 256;

/// The number of the first question from 6 to 20 that has a no; 0 if none has.
///
/// `trading` holds the accounts with a trading mark, which only question 10 asks about.
pub fn before_limits(book: &Book, trading: &BTreeSet<u16>, bytes: &[u8]) -> u8 {
    let Some(event) = Event::read(bytes) else {
        return 6;
    };
    let asked = [
        (7, account_on_roster(book, &event)),
        (8, item_on_roster(book, &event)),
        (9, in_range(&event)),
        (10, not_yet_trading(trading, &event)),
        (11, is_open(book, &event)),
        (12, fits_what_is_filled(book, &event)),
    ];
    match asked.iter().find(|(_, yes)| !yes) {
        Some(&(number, _)) => number,
        None => {
            entered(book, &event).map_or(0, |order| before_position_limits(book, &event, &order))
        }
    }
}

/// The order that a NEW enters, or a REPLACE whose total rises raises to; none for another event.
pub fn entered(book: &Book, event: &Event) -> Option<Order> {
    match *event {
        Event::New {
            side,
            account,
            instrument,
            id,
            quantity,
        } => Some(Order {
            id,
            account,
            instrument,
            side,
            total: quantity,
            filled: 0,
        }),
        Event::Replace { id, total } => {
            let order = *book.order(id)?;
            (total > order.total).then_some(Order { total, ..order })
        }
        _ => None,
    }
}

fn account_on_roster(book: &Book, event: &Event) -> bool {
    match *event {
        Event::Limit {
            line: Line::Own { account, .. },
            ..
        }
        | Event::Limit {
            line: Line::Default { account, .. },
            ..
        }
        | Event::Limit {
            line: Line::Group { account, .. },
            ..
        }
        | Event::Balance { account, .. }
        | Event::Block {
            block: Block::Account(account),
            ..
        }
        | Event::Block {
            block: Block::Group { account, .. },
            ..
        }
        | Event::New { account, .. } => book.roster.has_account(account),
        _ => true,
    }
}

fn item_on_roster(book: &Book, event: &Event) -> bool {
    let roster = &book.roster;
    match *event {
        Event::Limit {
            line: Line::Own { instrument, .. },
            ..
        }
        | Event::Balance { instrument, .. }
        | Event::Block {
            block: Block::Instrument(instrument),
            ..
        }
        | Event::New { instrument, .. } => roster.has_instrument(instrument),
        Event::Limit {
            line: Line::Default { contract, .. },
            ..
        } => roster.has_contract(contract),
        Event::Limit {
            line: Line::Group { group, .. },
            ..
        }
        | Event::Block {
            block: Block::Group { group, .. },
            ..
        } => roster.has_group(group),
        _ => true,
    }
}

fn in_range(event: &Event) -> bool {
    match *event {
        Event::Limit { line, figures } => {
            let named = if matches!(line, Line::Group { .. }) {
                2
            } else {
                4
            };
            let unset = figures[..named].iter().all(|&figure| figure == -1);
            unset
                || figures
                    .iter()
                    .all(|figure| (0..=LARGEST_FIGURE).contains(figure))
        }
        Event::Balance { figure, .. } => (-LARGEST_FIGURE..=LARGEST_FIGURE).contains(&figure),
        Event::Block { figure, .. } => figure == 0 || figure == 1,
        Event::New {
            quantity: figure, ..
        }
        | Event::Replace { total: figure, .. }
        | Event::Fill {
            quantity: figure, ..
        } => (1..=LARGEST_QUANTITY).contains(&figure),
        Event::Cancel { .. } => true,
    }
}

fn not_yet_trading(trading: &BTreeSet<u16>, event: &Event) -> bool {
    match *event {
        Event::Balance { account, .. } => !trading.contains(&account),
        _ => true,
    }
}

fn is_open(book: &Book, event: &Event) -> bool {
    match *event {
        Event::Replace { id, .. } | Event::Cancel { id } | Event::Fill { id, .. } => {
            book.order(id).is_some()
        }
        _ => true,
    }
}

fn fits_what_is_filled(book: &Book, event: &Event) -> bool {
    match *event {
        Event::Replace { id, total } => book.order(id).is_some_and(|order| total > order.filled),
        Event::Fill { id, quantity } => book
            .order(id)
            .is_some_and(|order| quantity <= order.remaining()),
        _ => true,
    }
}

/// Questions 13 to 20, of an order that a NEW enters or a REPLACE raises to.
fn before_position_limits(book: &Book, event: &Event, order: &Order) -> u8 {
    let Order {
        account,
        instrument,
        ..
    } = *order;
    let group = book.roster.group(instrument);
    let is_new = matches!(event, Event::New { .. });
    let line = book.lines.get(&book.line_in_force(account, instrument));
    let group_line = book.lines.get(&Line::Group { account, group });
    let asked = [
        (13, !is_new || book.order(order.id).is_none()),
        (14, !book.blocks.contains(&Block::Account(account))),
        (15, !book.blocks.contains(&Block::Instrument(instrument))),
        (16, !book.blocks.contains(&Block::Group { account, group })),
        (17, line.is_some() && group_line.is_some()),
        (18, !is_new || book.orders.len() < MOST_OPEN),
        (
            19,
            order.side == Side::Sell || line.is_some_and(|figures| order.total <= figures[0]),
        ),
        (
            20,
            order.side == Side::Buy || line.is_some_and(|figures| order.total <= figures[1]),
        ),
    ];
    asked
        .iter()
        .find(|(_, yes)| !yes)
        .map_or(0, |&(number, _)| number)
}
