//! Traffic, junk, full lists, blocks and balances.

use std::collections::BTreeSet;

use days::class::{Class, Quantity, Sign};
use days::plain::{Block, Event, Side};
use days::steps::Step;

use crate::{all, answers, count, count_pairs};

const SIDES: [Side; 2] = [Side::Buy, Side::Sell];

const SIGNS: [Sign; 3] = [Sign::Positive, Sign::Negative, Sign::Zero];

#[test]
fn traffic_has_every_side_sign_and_direction() {
    let days = all("traffic");
    let accepted = |class| count(&days, |step| step.is_accepted() && step.class == class);
    for side in SIDES {
        for sign in SIGNS {
            assert!(accepted(Class::New(side, sign)) >= 100, "{side:?} {sign:?}");
            assert!(
                accepted(Class::Raise(side, sign)) >= 10,
                "{side:?} {sign:?}"
            );
        }
        assert!(
            accepted(Class::Fill(side, Quantity::Part)) >= 100,
            "{side:?}"
        );
        assert!(
            accepted(Class::Fill(side, Quantity::Whole)) >= 100,
            "{side:?}"
        );
    }
    for class in [Class::Same, Class::Lower, Class::Cancel] {
        assert!(accepted(class) >= 100, "{class:?}");
    }
    for number in 19..=24 {
        assert!(count(&days, |step| step.answer == number) >= 50, "{number}");
    }
}

#[test]
fn traffic_uses_ids_again() {
    let mut again = 0;
    for day in all("traffic") {
        let mut used = BTreeSet::new();
        for step in day.iter().filter(|step| step.is_accepted()) {
            if let Some(Event::New { id, .. }) = step.event() {
                again += usize::from(!used.insert(id));
            }
        }
    }
    assert!(again >= 500, "{again}");
}

#[test]
fn junk_comes_to_every_byte_of_every_kind_of_event() {
    let days = all("every field");
    for kind in 1..=7 {
        for place in 1..48 {
            let marked = |step: &Step| {
                step.bytes.len() == 48 && step.bytes[0] == kind && step.bytes[place] == 255
            };
            assert!(count(&days, marked) >= 1, "kind {kind}, byte {place}");
        }
    }
    assert!(count(&days, |step| step.answer == 6) >= 500);
    assert!(count(&days, |step| step.is_accepted()) >= 500);
}

#[test]
fn noise_has_wrong_lengths_and_random_bytes() {
    let days = all("noise");
    for length in [0, 1, 47, 49] {
        let wrong = |step: &Step| step.bytes.len() == length;
        assert!(count(&days, wrong) >= 10, "{length}");
        assert_eq!(answers(&days, wrong), BTreeSet::from([6]));
    }
    let full_of_bytes = |step: &Step| step.bytes.len() == 48 && !step.bytes.contains(&0);
    assert!(count(&days, full_of_bytes) >= 100);
    assert!(count(&days, |step| step.is_accepted()) >= 500);
}

#[test]
fn a_full_list_says_18_and_takes_an_order_when_a_place_is_free() {
    let days = all("full list");
    let open = |step: &Step, orders: usize| step.before.orders.len() == orders;
    let is_new = |step: &Step| matches!(step.class, Class::New(..));
    assert!(count(&days, |step| open(step, 256) && step.answer == 18) >= 50);
    assert!(count(&days, |step| open(step, 256) && step.answer == 13) >= 3);
    assert_eq!(
        answers(&days, |step| open(step, 256) && is_new(step)),
        BTreeSet::from([13, 18])
    );
    assert!(
        count(&days, |step| open(step, 255)
            && is_new(step)
            && step.is_accepted())
            >= 6
    );
    let raised = |step: &Step| matches!(step.class, Class::Raise(..)) && step.is_accepted();
    assert!(count(&days, |step| open(step, 256) && raised(step)) >= 20);
    let closes =
        |step: &Step| matches!(step.class, Class::Cancel | Class::Fill(_, Quantity::Whole));
    let taken = |one: &Step, next: &Step| {
        open(one, 256) && closes(one) && is_new(next) && next.is_accepted()
    };
    assert!(count_pairs(&days, taken) >= 6);
}

/// The place of the id of an order's event: how many open ids are below it.
fn place(step: &Step) -> Option<usize> {
    let (Event::New { id, .. }
    | Event::Replace { id, .. }
    | Event::Cancel { id }
    | Event::Fill { id, .. }) = step.event()?
    else {
        return None;
    };
    let below = step.before.orders.iter().filter(|order| order.id < id);
    Some(below.count())
}

#[test]
fn the_ends_of_each_sixteen_are_asked_for_and_the_ids_beside_them() {
    let days = all("sixteens");
    let raise = |class: &Class| matches!(class, Class::Raise(..));
    let part = |class: &Class| matches!(class, Class::Fill(_, Quantity::Part));
    let whole = |class: &Class| matches!(class, Class::Fill(_, Quantity::Whole));
    let new = |class: &Class| matches!(class, Class::New(..));
    let lower = |class: &Class| *class == Class::Lower;
    let to_filled = |class: &Class| *class == Class::LowerToFilled;
    let cancel = |class: &Class| *class == Class::Cancel;
    let not_open: [fn(&Class) -> bool; 3] = [
        |class| *class == Class::ReplaceNotOpen,
        |class| *class == Class::CancelNotOpen,
        |class| *class == Class::FillNotOpen,
    ];
    for open in [16, 32, 240, 256] {
        let times = |wanted: fn(&Class) -> bool, at: usize, answer: u8| {
            count(&days, |step| {
                step.before.orders.len() == open
                    && step.answer == answer
                    && wanted(&step.class)
                    && place(step) == Some(at)
            })
        };
        for at in (0..open).step_by(16).flat_map(|first| [first, first + 15]) {
            for class in [raise, lower, part, whole, cancel] as [fn(&Class) -> bool; 5] {
                assert_eq!(times(class, at, 0), days.len(), "{at} of {open}");
            }
            assert_eq!(times(to_filled, at, 12), days.len(), "{at} of {open}");
            assert_eq!(times(new, at, 13), days.len(), "{at} of {open}");
        }
        // before the first block, between two, and behind the last
        for at in (0..=open).step_by(16) {
            let blocks = if at % open == 0 { 1 } else { 2 };
            for class in not_open {
                assert_eq!(times(class, at, 11), blocks * days.len(), "{at} of {open}");
            }
        }
    }
}

#[test]
fn blocks_stop_orders_and_raises_and_nothing_else() {
    let days = all("blocks");
    let blocked = |step: &Step| {
        let order = match step.event() {
            Some(Event::Replace { id, .. } | Event::Cancel { id } | Event::Fill { id, .. }) => {
                step.before.order(id)
            }
            _ => None,
        };
        order.is_some_and(|order| step.before.blocks.contains(&Block::Account(order.account)))
    };
    for number in [14, 15, 16] {
        for side in SIDES {
            let new = |step: &Step| matches!(step.class, Class::New(of, _) if of == side);
            assert!(count(&days, |step| new(step) && step.answer == number) >= 10);
            let raise = |step: &Step| matches!(step.class, Class::Raise(of, _) if of == side);
            assert!(count(&days, |step| raise(step) && step.answer == number) >= 10);
        }
    }
    for class in [
        Class::Same,
        Class::Lower,
        Class::Fill(Side::Buy, Quantity::Part),
    ] {
        let passes = |step: &Step| step.class == class && blocked(step) && step.is_accepted();
        assert!(count(&days, passes) >= 10, "{class:?}");
    }
    for level in 1..=3 {
        let class = |step: &Step| step.class == Class::Block(level) && step.is_accepted();
        assert!(count(&days, class) >= 50, "{level}");
    }
}

#[test]
fn balances_come_before_and_after_trading() {
    let days = all("balances");
    let is_balance = |step: &Step| step.class == Class::Balance;
    assert!(count(&days, |step| is_balance(step) && step.answer == 10) >= 100);
    assert!(count(&days, |step| is_balance(step) && step.is_accepted()) >= 100);
    let refused_new = |step: &Step| matches!(step.class, Class::New(..)) && !step.is_accepted();
    let accepted_balance = |step: &Step| is_balance(step) && step.is_accepted();
    let unmarked = |one: &Step, next: &Step| refused_new(one) && accepted_balance(next);
    assert!(count_pairs(&days, unmarked) >= 10);
    let none_open = |step: &Step| step.before.orders.is_empty() && step.answer == 10;
    assert!(count(&days, none_open) >= 4, "the mark outlives the orders");
}
