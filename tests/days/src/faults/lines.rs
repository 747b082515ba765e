//! Limits seen wrongly.

use reference::book::{GroupLine, Line};
use reference::{Desk, Order};

use super::judged;
use crate::plain::Event;

const LARGEST: i64 = 1_000_000_000;

/// Changes the line in force of the order that the event enters, and its group's line.
fn change_lines(
    desk: &mut Desk,
    event: &Event,
    change: impl Fn(&Order, &mut Line, &mut GroupLine),
) {
    let Some(order) = judged(desk, event) else {
        return;
    };
    let Order {
        account,
        instrument,
        ..
    } = order;
    let group = desk.roster.group_of_instrument(instrument);
    let line = desk.book.line_in_force(&desk.roster, account, instrument);
    let group_line = desk.book.group_lines[account][group];
    if let (Some(mut line), Some(mut group_line)) = (line, group_line) {
        change(&order, &mut line, &mut group_line);
        desk.book.own_lines[account][instrument] = Some(line);
        desk.book.group_lines[account][group] = Some(group_line);
    }
}

pub fn sells_against_lci(desk: &mut Desk, event: &Event) {
    change_lines(desk, event, |_, line, _| line.lvi = line.lci);
}

pub fn group_side_without_sign(desk: &mut Desk, event: &Event) {
    let roster = desk.roster.clone();
    change_lines(desk, event, |order, _, line| {
        if roster.weight_of_instrument(order.instrument) < 0 {
            *line = GroupLine {
                lcc: line.lvc,
                lvc: line.lcc,
            };
        }
    });
}

/// Joins a set own line with the set default, figure by figure.
fn join_default(desk: &mut Desk, event: &Event, join: fn(own: i64, default: i64) -> i64) {
    let Some(order) = judged(desk, event) else {
        return;
    };
    let contract = desk.roster.contract_of_instrument(order.instrument);
    let default = desk.book.default_lines[order.account][contract];
    let own = &mut desk.book.own_lines[order.account][order.instrument];
    if let (Some(line), Some(default)) = (own, default) {
        *line = Line {
            tci: join(line.tci, default.tci),
            tvi: join(line.tvi, default.tvi),
            lci: join(line.lci, default.lci),
            lvi: join(line.lvi, default.lvi),
        };
    }
}

pub fn zeros_filled_in(desk: &mut Desk, event: &Event) {
    join_default(
        desk,
        event,
        |own, default| if own == 0 { default } else { own },
    );
}

pub fn lesser_of_both(desk: &mut Desk, event: &Event) {
    join_default(desk, event, i64::min);
}

pub fn default_first(desk: &mut Desk, event: &Event) {
    join_default(desk, event, |_, default| default);
}

pub fn reaching_refused(desk: &mut Desk, event: &Event) {
    change_lines(desk, event, |_, line, group_line| {
        for figure in [
            &mut line.lci,
            &mut line.lvi,
            &mut group_line.lcc,
            &mut group_line.lvc,
        ] {
            *figure = (*figure - 1).max(0);
        }
    });
}

pub fn passing_accepted(desk: &mut Desk, event: &Event) {
    change_lines(desk, event, |_, line, group_line| {
        for figure in [
            &mut line.lci,
            &mut line.lvi,
            &mut group_line.lcc,
            &mut group_line.lvc,
        ] {
            *figure = (*figure + 1).min(LARGEST);
        }
    });
}

pub fn group_limit_not_multiplied(desk: &mut Desk, event: &Event) {
    change_lines(desk, event, |_, _, line| {
        *line = GroupLine {
            lcc: line.lcc / 10_000,
            lvc: line.lvc / 10_000,
        };
    });
}

pub fn no_instrument_limits(desk: &mut Desk, event: &Event) {
    change_lines(desk, event, |_, line, _| {
        *line = Line {
            lci: LARGEST,
            lvi: LARGEST,
            ..*line
        }
    });
}

pub fn no_group_limits(desk: &mut Desk, event: &Event) {
    change_lines(desk, event, |_, _, line| {
        *line = GroupLine {
            lcc: LARGEST,
            lvc: LARGEST,
        }
    });
}

pub fn replace_not_judged(desk: &mut Desk, event: &Event) {
    if let Event::Replace { .. } = event {
        no_instrument_limits(desk, event);
        no_group_limits(desk, event);
    }
}

pub fn first_order_only(desk: &mut Desk, event: &Event) {
    if !desk.book.orders.is_empty() {
        no_instrument_limits(desk, event);
        no_group_limits(desk, event);
    }
}

/// What the order would add to a position is added to its limit.
pub fn not_applied(desk: &mut Desk, event: &Event) {
    let (roster, book) = (desk.roster.clone(), desk.book.clone());
    change_lines(desk, event, |order, line, group_line| {
        let before = book.order(order.id).map_or(0, |before| before.total);
        let added = order.total.saturating_sub(before) as i64;
        let weighted = added * roster.weight_of_instrument(order.instrument).abs() / 10_000;
        line.lci = (line.lci + added).min(LARGEST);
        line.lvi = (line.lvi + added).min(LARGEST);
        group_line.lcc = (group_line.lcc + weighted).min(LARGEST);
        group_line.lvc = (group_line.lvc + weighted).min(LARGEST);
    });
}
