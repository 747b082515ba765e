//! Gates that judge rightly and keep the wrong thing.

use reference::{Desk, Order, Side};

use super::{free_id, Fault, How};
use crate::demand3::Violation::{self, PastLater, PastNotRefused, Position, RefusedNotPast};
use crate::plain::{Event, Line};

const MISSING: &[Violation] = &[Position, PastNotRefused, PastLater];
const LEFT_OVER: &[Violation] = &[Position, RefusedNotPast];
const MOVED: &[Violation] = &[Position, PastNotRefused, RefusedNotPast, PastLater];
const OTHER_LIMIT: &[Violation] = &[PastNotRefused, RefusedNotPast, PastLater];

pub fn faults() -> Vec<Fault> {
    vec![
        keeps("an accepted order is not kept", MISSING, without_the_order),
        keeps("a replaced total is not kept", MISSING, without_the_replace),
        keeps(
            "a part fill closes the order",
            MISSING,
            without_the_part_filled,
        ),
        keeps("a cancelled order is kept", LEFT_OVER, with_the_cancelled),
        keeps("a fill does not move S", MOVED, with_s_unmoved),
        keeps("a fill of a sell raises S", MOVED, with_sells_raising),
        keeps(
            "a set line is not set again",
            OTHER_LIMIT,
            with_the_first_line,
        ),
        keeps(
            "a sell is tested against LCI after LCI was lowered",
            OTHER_LIMIT,
            with_lci_for_sells,
        ),
    ]
}

fn keeps(
    name: &'static str,
    caught_at: &'static [Violation],
    change: fn(&mut Desk, &Desk, &Event),
) -> Fault {
    Fault {
        name,
        caught_at,
        how: How::Keeps(change),
    }
}

fn without_the_order(kept: &mut Desk, before: &Desk, event: &Event) {
    if let Event::New { .. } = event {
        kept.book.orders = before.book.orders.clone();
    }
}

fn without_the_replace(kept: &mut Desk, before: &Desk, event: &Event) {
    if let Event::Replace { .. } = event {
        kept.book.orders = before.book.orders.clone();
    }
}

/// The cancelled order stays under another id.
fn with_the_cancelled(kept: &mut Desk, before: &Desk, event: &Event) {
    if let Event::Cancel { id } = *event {
        let cancelled = before.book.order(id).copied();
        let id = free_id(kept);
        kept.book
            .orders
            .extend(cancelled.map(|order| Order { id, ..order }));
    }
}

fn without_the_part_filled(kept: &mut Desk, _: &Desk, event: &Event) {
    if let Event::Fill { id, .. } = *event {
        kept.book.orders.retain(|order| order.id != id);
    }
}

fn with_s_unmoved(kept: &mut Desk, before: &Desk, event: &Event) {
    if let Event::Fill { .. } = event {
        kept.book.balances = before.book.balances.clone();
    }
}

fn with_sells_raising(kept: &mut Desk, before: &Desk, event: &Event) {
    if let Event::Fill { id, quantity } = *event {
        let sell = before
            .book
            .order(id)
            .filter(|order| order.side == Side::Sell);
        if let Some(order) = sell {
            kept.book.balances[order.account][order.instrument] += 2 * quantity;
        }
    }
}

/// Once LCI of a set line is lowered, its LVI is taken to be LCI.
fn with_lci_for_sells(kept: &mut Desk, before: &Desk, event: &Event) {
    fn lower(kept: &mut Option<reference::Line>, before: Option<reference::Line>) {
        if let (Some(line), Some(before)) = (kept, before) {
            line.lvi = if line.lci < before.lci {
                line.lci
            } else {
                line.lvi
            };
        }
    }
    let (kept, before) = (&mut kept.book, &before.book);
    match *event {
        Event::Limit {
            line: Line::Own {
                account,
                instrument,
            },
            ..
        } => lower(
            &mut kept.own_lines[account][instrument],
            before.own_lines[account][instrument],
        ),
        Event::Limit {
            line: Line::Default { account, contract },
            ..
        } => lower(
            &mut kept.default_lines[account][contract],
            before.default_lines[account][contract],
        ),
        _ => {}
    }
}

fn with_the_first_line(kept: &mut Desk, before: &Desk, event: &Event) {
    fn restore<T: Copy>(kept: &mut Option<T>, before: Option<T>) {
        *kept = before.or(*kept);
    }
    let (kept, before) = (&mut kept.book, &before.book);
    if let Event::Limit { line, .. } = *event {
        match line {
            Line::Own {
                account,
                instrument,
            } => restore(
                &mut kept.own_lines[account][instrument],
                before.own_lines[account][instrument],
            ),
            Line::Default { account, contract } => restore(
                &mut kept.default_lines[account][contract],
                before.default_lines[account][contract],
            ),
            Line::Group { account, group } => restore(
                &mut kept.group_lines[account][group],
                before.group_lines[account][group],
            ),
        }
    }
}
