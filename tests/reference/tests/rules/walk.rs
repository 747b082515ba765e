//! Long walks over events of every kind, sound and not: what holds after each of them.

use crate::dice::Dice;
use crate::trial::{Trial, WIDE};
use crate::Lent;
use wire::{balance, block, cancel, fill, limit, new, replace, Fields, RosterSpec, BUY, SELL};

fn roster() -> RosterSpec {
    RosterSpec {
        accounts: 3,
        groups: 2,
        groups_of: vec![1, 2, 2],
        instruments: vec![(1, 10_000), (2, -7_500), (3, 0), (3, 1), (2, -1_000_000)],
    }
}

/// An event whose numbers are mostly on the roster and mostly in range.
fn draw_event(dice: &mut Dice) -> Fields {
    let account = dice.pick(&[1, 2, 3, 1, 2, 3, 1, 2, 3, 0, 4]);
    let instrument = dice.pick(&[1, 2, 3, 4, 5, 1, 2, 3, 4, 5, 0, 6]);
    let id = dice.draw(0, 300) as u64;
    let side = dice.pick(&[BUY, SELL]);
    let quantity = dice.pick(&[1, 2, 5, 10, 1_000, 1_000_000, 1_000_001]);
    let figure = dice.pick(&[-1, 0, 50, 1_000, WIDE, WIDE, WIDE + 1]);
    let level = dice.draw(1, 3) as u8;
    match dice.draw(0, 19) {
        0..=1 => limit(level, account, dice.draw(1, 4) as u16, four(level, figure)),
        2 => balance(account, instrument, dice.draw(-50, 50)),
        3 => block(
            level,
            dice.draw(0, 3) as u16,
            dice.draw(0, 3) as u16,
            dice.draw(0, 1),
        ),
        4..=13 => new(side, account, instrument, id, quantity),
        14..=15 => replace(id, quantity),
        16 => cancel(id),
        _ => fill(id, quantity),
    }
}

fn four(level: u8, figure: i64) -> [i64; 4] {
    match level {
        3 => [figure, figure, 0, 0],
        _ => [figure; 4],
    }
}

/// A desk where every line is wide.
fn desk() -> Lent {
    let mut trial = Trial::open(&roster());
    for account in 1..=3 {
        for (level, items) in [(2, 3), (3, 2)] {
            for item in 1..=items {
                trial.accept(limit(level, account, item, four(level, WIDE)));
            }
        }
    }
    trial.lent
}

#[test]
fn after_each_event_the_desk_is_sound_and_a_refusal_changed_nothing() {
    let mut dice = Dice::new(3);
    let mut seen = [0u32; 25];
    for _ in 0..20 {
        let mut lent = desk();
        for _ in 0..1_000 {
            let event = draw_event(&mut dice);
            let before = lent.clone();
            let number = lent.event(&event.bytes());
            seen[usize::from(number)] += 1;
            let after = lent.desk().unwrap();
            assert!(number == 0 || lent == before);
            assert!(after.is_sound());
            assert!(after.book.orders.is_sorted_by(|one, next| one.id < next.id));
        }
    }
    for number in [0].into_iter().chain(6..=24).filter(|&number| number != 18) {
        assert!(seen[number] > 0, "{number} never came: {seen:?}");
    }
}
