//! Position limits against every filling of the open orders, on small desks.
//!
//! Fillings are counted out one by one, and positions after a filling come from its balances
//! alone; nothing here uses PCI, PVI, PCC or PVC.

use crate::dice::Dice;
use crate::trial::{group_line, one_group, own_line, Trial};
use reference::{Event, Lent, Order, Side};
use wire::{balance, block, cancel, fill, new, replace, Fields, BUY, SELL};

const WEIGHTS: [i32; 7] = [-20_000, -10_000, -5_000, 0, 5_000, 10_000, 20_000];
const INSTRUMENTS: u16 = 2;

/// Whether, with these balances, the order's instrument or group is past its limit on the side to
/// which the order's own fills move it.
fn past(lent: &Lent, order: &Order, balances: &[i64]) -> bool {
    let desk = lent.desk().unwrap();
    let weight = |instrument: u16| desk.roster.weight_of_instrument(instrument);
    let line = desk.book.own_lines[1][order.instrument].unwrap();
    let group_line = desk.book.group_lines[1][1].unwrap();
    let long = balances[usize::from(order.instrument) - 1];
    let group: i64 = (1..=INSTRUMENTS)
        .map(|each| weight(each) * balances[usize::from(each) - 1])
        .sum();
    let (instrument_past, direction) = match order.side {
        Side::Buy => (long > line.lci, 1),
        Side::Sell => (-long > line.lvi, -1),
    };
    let group_past = match (direction * weight(order.instrument)).signum() {
        1 => group > group_line.lcc * 10_000,
        -1 => -group > group_line.lvc * 10_000,
        _ => false,
    };
    instrument_past || group_past
}

/// Whether some filling of the orders puts a position past its limit on a side that `order` moves.
fn some_filling_is_past(lent: &Lent, order: &Order, open: &[Order], balances: &[i64]) -> bool {
    let Some((first, rest)) = open.split_first() else {
        return past(lent, order, balances);
    };
    (0..=first.remaining() as i64).any(|quantity| {
        let mut balances = balances.to_vec();
        balances[usize::from(first.instrument) - 1] += match first.side {
            Side::Buy => quantity,
            Side::Sell => -quantity,
        };
        some_filling_is_past(lent, order, rest, &balances)
    })
}

fn balances(lent: &Lent) -> Vec<i64> {
    let book = &lent.desk().unwrap().book;
    (1..=INSTRUMENTS)
        .map(|each| book.balances[1][each])
        .collect()
}

/// The order that a NEW would enter or a REPLACE would raise, and the open orders with it.
fn proposed(lent: &Lent, event: Fields) -> Option<(Order, Vec<Order>)> {
    let mut open = lent.desk().unwrap().book.orders.clone();
    match Event::read(&event.bytes())? {
        Event::New(new) => {
            open.push(new.order());
            Some((new.order(), open))
        }
        Event::Replace { id, total } => {
            let order = open.iter_mut().find(|order| order.id == id)?;
            let rises = total as u64 > order.total;
            order.total = total as u64;
            let order = *order;
            rises.then_some((order, open))
        }
        _ => None,
    }
}

fn set_lines(trial: &mut Trial, dice: &mut Dice) {
    for instrument in 1..=INSTRUMENTS {
        let figures = [9, 9, dice.draw(0, 5), dice.draw(0, 5)];
        trial.accept(own_line(1, instrument, figures));
    }
    trial.accept(group_line(1, 1, dice.draw(0, 6), dice.draw(0, 6)));
}

/// An event of one account with few ids and small figures.
fn draw_event(dice: &mut Dice) -> Fields {
    let id = dice.draw(1, 3) as u64;
    match dice.draw(0, 9) {
        0..=4 => new(
            dice.pick(&[BUY, SELL]),
            1,
            dice.draw(1, 2) as u16,
            id,
            dice.draw(1, 3),
        ),
        5..=6 => replace(id, dice.draw(1, 5)),
        7..=8 => fill(id, dice.draw(1, 3)),
        _ => cancel(id),
    }
}

fn draw_desk(dice: &mut Dice) -> Trial {
    let weights = [dice.pick(&WEIGHTS), dice.pick(&WEIGHTS)];
    let mut trial = Trial::open(&one_group(&weights));
    for instrument in 1..=INSTRUMENTS {
        trial.accept(balance(1, instrument, dice.draw(-3, 3)));
    }
    set_lines(&mut trial, dice);
    trial
}

/// An event that passes every question before 21 is refused exactly when some filling of the open
/// orders and its own is past a limit on a side that its fills move.
#[test]
fn refused_for_a_position_limit_exactly_when_some_filling_is_past() {
    let mut dice = Dice::new(1);
    let mut seen = [0u32; 25];
    for _ in 0..400 {
        let mut trial = draw_desk(&mut dice);
        for _ in 0..30 {
            if dice.draw(0, 9) == 0 {
                set_lines(&mut trial, &mut dice);
            }
            let event = draw_event(&mut dice);
            let before = trial.lent.clone();
            let number = trial.lent.event(&event.bytes());
            if !matches!(number, 0 | 21..=24) {
                continue;
            }
            if let Some((order, open)) = proposed(&before, event) {
                seen[usize::from(number)] += 1;
                let past = some_filling_is_past(&before, &order, &open, &balances(&before));
                assert_eq!(number != 0, past, "{event:?} answered {number}");
            }
        }
    }
    for number in [0, 21, 22, 23, 24] {
        assert!(seen[number] > 50, "{number} came {} times", seen[number]);
    }
}

/// After an accepted order no later event puts its positions past their limits on its sides, as
/// long as no limit is set again.
#[test]
fn accepted_order_stays_within_its_limits() {
    let mut dice = Dice::new(2);
    let mut checks = 0;
    for _ in 0..400 {
        let mut trial = draw_desk(&mut dice);
        let mut accepted: Vec<Order> = Vec::new();
        for _ in 0..40 {
            let mut event = draw_event(&mut dice);
            if dice.draw(0, 9) == 0 {
                event = block(1, 1, 0, dice.draw(0, 1));
            }
            let before = trial.lent.clone();
            if trial.lent.event(&event.bytes()) == 0 {
                accepted.extend(proposed(&before, event).map(|(order, _)| order));
            }
            for order in &accepted {
                checks += 1;
                assert!(!past(&trial.lent, order, &balances(&trial.lent)));
            }
        }
    }
    assert!(checks > 10_000);
}
