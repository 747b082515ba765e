//! When a desk is sound: each clause of document 01, kept and broken.

use crate::trial::{group_line, own_line, Trial, ONE};
use reference::{Desk, GroupLine, Lent, Line, Order, MEMORY};
use wire::{balance, cancel, new, BUY, SELL};

/// A limits file of no accounts.
const NOTHING: &[u8] = br#"<FIXML><SetLimRqt BrkFrmId="" NAccts="0"/></FIXML>"#;

/// The largest position, and the largest limit.
const MOST: i64 = 1_000_000_000;

/// A buy of 10 with id 3 and a sell of 20 with id 5 in instrument 1, and some lines.
fn desk() -> Desk {
    let mut trial = Trial::wide(&[ONE, -ONE]);
    trial.accept(balance(1, 1, 7));
    trial.accept(own_line(1, 2, [1; 4]));
    trial.accept(new(BUY, 1, 1, 3, 10));
    trial.accept(new(SELL, 1, 1, 5, 20));
    trial.lent.desk().unwrap().clone()
}

/// Whether the desk, changed so, is sound. If it is not, events, loads and readers answer 5 and
/// change nothing; if it is, none of them answers 5.
#[track_caller]
fn sound(change: impl FnOnce(&mut Desk)) -> bool {
    let mut desk = desk();
    change(&mut desk);
    let sound = desk.is_sound();
    let mut lent = Lent::holding(MEMORY, desk);
    let before = lent.clone();
    assert_eq!(lent.instrument_position(1, 1) != Err(5), sound);
    assert_eq!(lent.group_position(1, 1) != Err(5), sound);
    assert_eq!(lent.event(&cancel(9).bytes()) != 5, sound);
    assert_eq!(lent.load_limits(NOTHING) != 5, sound);
    assert!(lent == before);
    sound
}

#[test]
fn unchanged_desk_is_sound() {
    assert!(sound(|_| ()));
}

#[test]
fn roster_would_be_accepted() {
    assert!(!sound(|desk| desk.roster.accounts = 0));
    assert!(!sound(|desk| desk.roster.groups = 5));
    assert!(!sound(|desk| desk.roster.group_of_contract[0] = 2));
    assert!(!sound(|desk| desk.roster.contract_of[1] = 0));
    assert!(!sound(|desk| desk.roster.weight[1] = -1_000_001));
    assert!(sound(|desk| desk.roster.weight[1] = -1_000_000));
}

#[test]
fn own_and_default_lines_are_in_range() {
    let line = |place: usize, figure: i64| {
        let mut figures = [0; 4];
        figures[place] = figure;
        let [tci, tvi, lci, lvi] = figures;
        Some(Line { tci, tvi, lci, lvi })
    };
    for place in 0..4 {
        for (figure, good) in [(-1, false), (0, true), (MOST, true), (MOST + 1, false)] {
            let own = sound(|desk| desk.book.own_lines[1][2] = line(place, figure));
            let default = sound(|desk| desk.book.default_lines[1][1] = line(place, figure));
            assert_eq!((own, default), (good, good));
        }
    }
}

#[test]
fn group_lines_are_in_range() {
    for (figure, good) in [(-1, false), (0, true), (MOST, true), (MOST + 1, false)] {
        let long = GroupLine {
            lcc: figure,
            lvc: 0,
        };
        let short = GroupLine {
            lcc: 0,
            lvc: figure,
        };
        assert_eq!(sound(|desk| desk.book.group_lines[1][1] = Some(long)), good);
        assert_eq!(
            sound(|desk| desk.book.group_lines[1][1] = Some(short)),
            good
        );
    }
}

#[test]
fn orders_are_in_range() {
    assert!(!sound(|desk| desk.book.orders[0].account = 0));
    assert!(!sound(|desk| desk.book.orders[0].account = 2));
    assert!(!sound(|desk| desk.book.orders[0].instrument = 0));
    assert!(!sound(|desk| desk.book.orders[0].instrument = 3));
    assert!(sound(|desk| desk.book.orders[0].total = 1_000_000));
    assert!(!sound(|desk| desk.book.orders[0].total = 1_000_001));
    assert!(!sound(|desk| desk.book.orders[0].total = u64::MAX));
}

#[test]
fn at_most_256_orders_are_open() {
    for (count, good) in [(1, true), (256, true), (257, false)] {
        let full = sound(|desk| {
            let order = desk.book.orders[0];
            desk.book.orders = (11..11 + count).map(|id| Order { id, ..order }).collect();
        });
        assert_eq!(full, good, "{count} orders");
    }
}

#[test]
fn ids_are_non_zero_and_differ() {
    assert!(!sound(|desk| desk.book.orders[0].id = 0));
    assert!(!sound(|desk| desk.book.orders[0].id = 5));
    assert!(sound(|desk| desk.book.orders[0].id = 4));
}

#[test]
fn every_remaining_is_at_least_1() {
    assert!(sound(|desk| desk.book.orders[0].filled = 9));
    assert!(!sound(|desk| desk.book.orders[0].filled = 10));
    assert!(!sound(|desk| desk.book.orders[0].filled = 11));
    assert!(!sound(|desk| desk.book.orders[0].filled = u64::MAX));
}

#[test]
fn positions_are_at_most_1_000_000_000() {
    for (balance, good) in [
        (MOST - 10, true),
        (MOST - 9, false),
        (20 - MOST, true),
        (19 - MOST, false),
        (i64::MAX, false),
        (i64::MIN, false),
    ] {
        assert_eq!(sound(|desk| desk.book.balances[1][1] = balance), good);
    }
    for (balance, good) in [
        (MOST, true),
        (MOST + 1, false),
        (-MOST, true),
        (-MOST - 1, false),
    ] {
        assert_eq!(sound(|desk| desk.book.balances[1][2] = balance), good);
    }
}

#[test]
fn every_account_with_an_open_order_is_trading() {
    assert!(!sound(|desk| desk.trading[1] = false));
    assert!(sound(|desk| {
        desk.trading[1] = false;
        desk.book.orders.clear();
    }));
}

#[test]
fn largest_positions_stay_sound() {
    let mut trial = Trial::wide(&[ONE]);
    trial.accept(group_line(1, 1, MOST, MOST));
    trial.accept(balance(1, 1, MOST - 1));
    trial.accept(new(BUY, 1, 1, 1, 1));
    trial.refuse(21, new(BUY, 1, 1, 2, 1));
    trial.accept(new(SELL, 1, 1, 2, 1_000_000));
    assert!(trial.lent.desk().unwrap().is_sound());
}
