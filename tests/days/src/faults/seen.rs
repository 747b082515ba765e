//! Gates that keep the right thing and judge by another.

use reference::Desk;

use super::{counted, lines, Fault, How};
use crate::demand3::Violation::{self, Answer, PastLater, PastNotRefused, RefusedNotPast};
use crate::plain::Event;

/// Too much passes.
const LAX: &[Violation] = &[Answer, PastNotRefused, PastLater];
/// Too little passes.
const STRICT: &[Violation] = &[Answer, RefusedNotPast];
/// Too much passes here and too little there.
const CROSSED: &[Violation] = &[Answer, PastNotRefused, RefusedNotPast, PastLater];
/// Every N is judged rightly, and what follows is not.
const LATER: &[Violation] = &[Answer, PastLater];

pub fn faults() -> Vec<Fault> {
    let mut faults = of_lines();
    faults.extend(of_limits());
    faults.extend(of_positions());
    faults.extend(of_orders());
    faults
}

fn of_lines() -> Vec<Fault> {
    vec![
        sees(
            "a sell is tested against LCI",
            CROSSED,
            lines::sells_against_lci,
        ),
        sees(
            "a group's side is without the sign of K",
            CROSSED,
            lines::group_side_without_sign,
        ),
        sees(
            "default figures fill an own line's zeros",
            LAX,
            lines::zeros_filled_in,
        ),
        sees(
            "the default's lesser figures hold too",
            STRICT,
            lines::lesser_of_both,
        ),
        sees(
            "the default holds over a set own line",
            CROSSED,
            lines::default_first,
        ),
    ]
}

fn of_limits() -> Vec<Fault> {
    vec![
        sees(
            "reaching a limit is refused",
            STRICT,
            lines::reaching_refused,
        ),
        sees(
            "passing a limit by one is accepted",
            LAX,
            lines::passing_accepted,
        ),
        sees(
            "a group limit is not multiplied",
            STRICT,
            lines::group_limit_not_multiplied,
        ),
        sees(
            "instrument limits are not asked",
            LAX,
            lines::no_instrument_limits,
        ),
        sees("group limits are not asked", LAX, lines::no_group_limits),
        sees("a REPLACE is not judged", LAX, lines::replace_not_judged),
        sees(
            "only the first open order is judged",
            LAX,
            lines::first_order_only,
        ),
        sees("N is not applied", LAX, lines::not_applied),
    ]
}

fn of_positions() -> Vec<Fault> {
    vec![
        sees("S is read as unsigned 16-bit", CROSSED, counted::unsigned),
        sees(
            "weights lose their sign",
            CROSSED,
            counted::weights_without_sign,
        ),
        sees(
            "weight 0 moves the group",
            STRICT,
            counted::zero_weight_moves,
        ),
        sees(
            "a group's instruments are not netted",
            STRICT,
            counted::not_netted_in_group,
        ),
        sees(
            "a BALANCE is accepted while trading",
            LATER,
            counted::balance_while_trading,
        ),
    ]
}

fn of_orders() -> Vec<Fault> {
    vec![
        sees("buys are netted against sells", LAX, counted::netted),
        sees(
            "a REPLACE is counted twice",
            STRICT,
            counted::replace_counted_twice,
        ),
        sees(
            "a REPLACE counts what is filled",
            STRICT,
            counted::filled_counted,
        ),
        sees("open orders are forgotten", LAX, counted::orders_forgotten),
        sees(
            "other accounts' orders are counted",
            STRICT,
            counted::orders_of_all_accounts,
        ),
    ]
}

fn sees(
    name: &'static str,
    caught_at: &'static [Violation],
    change: fn(&mut Desk, &Event),
) -> Fault {
    Fault {
        name,
        caught_at,
        how: How::Sees(change),
    }
}
