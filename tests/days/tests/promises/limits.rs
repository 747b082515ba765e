//! Figures at their bounds, limits reached and passed, the order of the questions, lines moved.

use std::collections::BTreeSet;

use days::class::{Class, Sign};
use days::demand3::limits_reached;
use days::plain::{Event, Line, Side};
use days::steps::Step;

use crate::{all, answers, count, count_pairs};

const LARGEST: i64 = 1_000_000_000;

/// The quantity or total of a NEW, REPLACE or FILL, and the event's kind.
fn quantity(step: &Step) -> Option<(u8, i64)> {
    match step.event()? {
        Event::New { quantity, .. } => Some((4, quantity)),
        Event::Replace { total, .. } => Some((5, total)),
        Event::Fill { quantity, .. } => Some((7, quantity)),
        _ => None,
    }
}

#[test]
fn quantities_stand_at_their_bounds_and_past_them() {
    let days = all("figures");
    for kind in [4, 5, 7] {
        let of = |figure| answers(&days, |step| quantity(step) == Some((kind, figure)));
        for figure in [1, 1_000_000] {
            // A REPLACE to 1 is not above what is filled.
            assert!(
                of(figure).contains(&0) || (kind, figure) == (5, 1),
                "{kind} {figure}"
            );
        }
        for figure in [i64::MIN, -1, 0, 1_000_001, i64::MAX] {
            assert_eq!(of(figure), BTreeSet::from([9]), "{kind} {figure}");
        }
    }
}

#[test]
fn balances_and_blocks_stand_at_their_bounds_and_past_them() {
    let days = all("figures");
    let balance = |wanted| {
        answers(&days, |step| match step.event() {
            Some(Event::Balance {
                account, figure, ..
            }) => (account, figure) == (1, wanted),
            _ => false,
        })
    };
    for figure in [-LARGEST, 1 - LARGEST, -1, 0, 1, LARGEST - 1, LARGEST] {
        assert!(balance(figure).contains(&0), "{figure}");
    }
    for figure in [i64::MIN, -LARGEST - 1, LARGEST + 1, i64::MAX] {
        assert_eq!(balance(figure), BTreeSet::from([9]), "{figure}");
    }
    for level in 1..=3 {
        let block = |wanted| {
            answers(&days, |step| {
                let figure =
                    matches!(step.event(), Some(Event::Block { figure, .. }) if figure == wanted);
                figure && step.class == Class::Block(level)
            })
        };
        assert!(block(0).contains(&0) && block(1).contains(&0));
        assert!([i64::MIN, -1, 2, i64::MAX]
            .iter()
            .all(|&figure| block(figure).contains(&9)));
    }
}

#[test]
fn limits_stand_at_their_bounds_and_past_them() {
    let days = all("figures");
    for level in 1..=3 {
        for place in 0..if level == 3 { 2 } else { 4 } {
            let figure = |step: &Step| match step.event() {
                Some(Event::Limit { figures, .. }) if step.class == Class::Limit(level) => {
                    let others = [0, 1, 2, 3].iter().filter(|&&other| other != place);
                    let large = others.filter(|&&other| figures[other] == LARGEST).count();
                    (large == if level == 3 { 1 } else { 3 }).then_some(figures[place])
                }
                _ => None,
            };
            let of = |wanted| answers(&days, |step| figure(step) == Some(wanted));
            for wanted in [0, 1, LARGEST - 1, LARGEST] {
                assert!(of(wanted).contains(&0), "{level} {place} {wanted}");
            }
            for wanted in [i64::MIN, -2, -1, LARGEST + 1, i64::MAX] {
                assert_eq!(of(wanted), BTreeSet::from([9]), "{level} {place} {wanted}");
            }
        }
    }
}

#[test]
fn every_limit_is_passed_by_one_and_reached() {
    let days = all("edges");
    for number in 19..=24 {
        for kind in [4, 5] {
            let by_one = |one: &Step, next: &Step| match (quantity(one), quantity(next)) {
                (Some((first, past)), Some((second, reached))) => {
                    (first, second, past) == (kind, kind, reached + 1)
                        && one.answer == number
                        && next.is_accepted()
                }
                _ => false,
            };
            // A REPLACE reaches the limit first, and passes it after.
            let found = match kind {
                4 => count_pairs(&days, by_one),
                _ => count_pairs(&days, |one, next| by_one(next, one)),
            };
            assert!(found >= 5, "{number} by kind {kind}: {found}");
        }
    }
}

#[test]
fn every_position_limit_is_reached_exactly() {
    let days = all("edges");
    for number in 21..=24 {
        let reached = |step: &Step| {
            let event = step.event().filter(|_| step.is_accepted());
            event.is_some_and(|event| limits_reached(&step.before, &event).contains(&number))
        };
        assert!(count(&days, reached) >= 10, "{number}");
    }
}

/// What a NEW of account 1 is answered on the ladder, up to its acceptance.
fn climbed(side: Side, sign: Sign) -> Vec<u8> {
    let before = [6, 7, 8, 9, 13, 14, 15, 16, 17, 17, 18];
    let (size, own) = if side == Side::Buy {
        (19, 21)
    } else {
        (20, 22)
    };
    let group = match (side, sign) {
        (_, Sign::Zero) => None,
        (Side::Buy, Sign::Positive) | (Side::Sell, Sign::Negative) => Some(23),
        _ => Some(24),
    };
    before
        .into_iter()
        .chain([size, own])
        .chain(group)
        .chain([0])
        .collect()
}

#[test]
fn the_ladder_climbs_through_every_answer_in_order() {
    for steps in all("ladder") {
        let of_account_2 =
            |step: &Step| matches!(step.event(), Some(Event::New { account: 2, .. }));
        let is_new = |step: &Step| matches!(step.class, Class::New(..) | Class::NewOffRoster(_));
        let mut climb = Vec::new();
        let mut climbs = 0;
        for step in steps
            .iter()
            .filter(|step| is_new(step) && !of_account_2(step))
        {
            climb.push(step.answer);
            if let (0, Class::New(side, sign)) = (step.answer, step.class) {
                assert_eq!(climb, climbed(side, sign));
                climbs += 1;
                climb.clear();
            }
            // At weight 0 the NEW comes once more after its acceptance.
            if climb == [13] {
                climb.clear();
            }
        }
        assert_eq!(climbs, 8);
    }
}

#[test]
fn lines_are_lowered_unset_and_left_under_an_own_line() {
    let days = all("lines");
    for number in [17, 19, 20, 21, 22, 23, 24] {
        let answered = |step: &Step, new: bool| match step.class {
            Class::New(..) => new && step.answer == number,
            Class::Raise(..) => !new && step.answer == number,
            _ => false,
        };
        assert!(
            count(&days, |step| answered(step, true)) >= 10,
            "NEW {number}"
        );
        assert!(
            count(&days, |step| answered(step, false)) >= 10,
            "REPLACE {number}"
        );
    }
    let under_own = |step: &Step| match step.event() {
        Some(Event::Limit {
            line: Line::Default { account, contract },
            ..
        }) => {
            let own = |line: &Line| match *line {
                Line::Own {
                    account: of,
                    instrument,
                } => of == account && step.before.roster.contract(instrument) == contract,
                _ => false,
            };
            step.is_accepted() && step.before.lines.keys().any(own)
        }
        _ => false,
    };
    assert!(count(&days, under_own) >= 50);
    let below = |step: &Step| match step.event() {
        Some(Event::Limit {
            line: Line::Own {
                account,
                instrument,
            },
            figures,
        }) => {
            let s = step.before.balance(account, instrument);
            step.is_accepted() && figures != [-1; 4] && (s > figures[2] || -s > figures[3])
        }
        _ => false,
    };
    assert!(count(&days, below) >= 20);
}
