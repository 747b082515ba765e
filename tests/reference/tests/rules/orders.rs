//! The life of an order: NEW, REPLACE, CANCEL, FILL.

use crate::trial::{default_line, group_line, own_line, Trial, ONE, WIDE};
use reference::{Order, Side};
use wire::{balance, cancel, fill, new, replace, RosterSpec, BUY, SELL};

fn open_orders(trial: &Trial) -> Vec<Order> {
    trial.lent.desk().unwrap().book.orders.clone()
}

fn two_accounts() -> Trial {
    let mut trial = Trial::open(&RosterSpec {
        accounts: 2,
        groups: 1,
        groups_of: vec![1],
        instruments: vec![(1, ONE), (1, ONE)],
    });
    for account in 1..=2 {
        trial.accept(default_line(account, 1, [WIDE; 4]));
        trial.accept(group_line(account, 1, WIDE, WIDE));
    }
    trial
}

#[test]
fn new_joins_with_filled_0() {
    let mut trial = two_accounts();
    trial.accept(new(SELL, 2, 1, u64::MAX, 9));
    let order = Order {
        id: u64::MAX,
        account: 2,
        instrument: 1,
        side: Side::Sell,
        total: 9,
        filled: 0,
    };
    assert_eq!(open_orders(&trial), [order]);
    assert_eq!(order.remaining(), 9);
}

#[test]
fn orders_are_kept_ascending_by_id() {
    let mut trial = Trial::wide(&[ONE]);
    for id in [5, u64::MAX, 1, 256, 3] {
        trial.accept(new(BUY, 1, 1, id, 1));
    }
    trial.accept(cancel(5));
    trial.accept(new(BUY, 1, 1, 4, 1));
    let ids: Vec<u64> = open_orders(&trial).iter().map(|order| order.id).collect();
    assert_eq!(ids, [1, 3, 4, 256, u64::MAX]);
}

#[test]
fn positions_are_of_one_account_and_instrument() {
    let mut trial = two_accounts();
    trial.accept(new(BUY, 1, 1, 1, 10));
    trial.accept(new(BUY, 1, 2, 2, 20));
    trial.accept(new(BUY, 2, 1, 3, 40));
    trial.accept(new(SELL, 2, 2, 4, 80));
    assert_eq!(trial.instrument(1, 1), (0, 10, 0));
    assert_eq!(trial.instrument(1, 2), (0, 20, 0));
    assert_eq!(trial.instrument(2, 1), (0, 40, 0));
    assert_eq!(trial.instrument(2, 2), (0, 0, 80));
    assert_eq!(trial.group(1, 1), (300_000, 0));
    assert_eq!(trial.group(2, 1), (400_000, 800_000));
}

#[test]
fn fills_move_the_balance_and_keep_the_sides_potential() {
    let mut trial = Trial::wide(&[ONE]);
    trial.accept(new(BUY, 1, 1, 1, 10));
    trial.accept(new(SELL, 1, 1, 2, 6));
    trial.accept(fill(1, 4));
    assert_eq!(trial.instrument(1, 1), (4, 10, 2));
    trial.accept(fill(2, 5));
    assert_eq!(trial.instrument(1, 1), (-1, 5, 2));
    assert_eq!(open_orders(&trial)[0].remaining(), 6);
    assert_eq!(open_orders(&trial)[1].remaining(), 1);
}

#[test]
fn fill_is_at_most_what_remains() {
    let mut trial = Trial::wide(&[ONE]);
    trial.accept(new(BUY, 1, 1, 1, 10));
    trial.refuse(12, fill(1, 11));
    trial.accept(fill(1, 4));
    trial.refuse(12, fill(1, 7));
    trial.accept(fill(1, 6));
    assert_eq!(open_orders(&trial), []);
    trial.refuse(11, fill(1, 1));
}

#[test]
fn filled_order_frees_its_id() {
    let mut trial = Trial::wide(&[ONE]);
    trial.accept(new(BUY, 1, 1, 7, 2));
    trial.refuse(13, new(BUY, 1, 1, 7, 2));
    trial.accept(fill(7, 2));
    trial.accept(new(SELL, 1, 1, 7, 3));
    assert_eq!(trial.instrument(1, 1), (2, 2, 1));
    trial.accept(cancel(7));
    trial.refuse(11, cancel(7));
    trial.accept(new(BUY, 1, 1, 7, 1));
    assert_eq!(trial.instrument(1, 1), (2, 3, -2));
}

#[test]
fn ids_are_one_space_over_all_accounts() {
    let mut trial = two_accounts();
    trial.accept(new(BUY, 1, 1, 7, 2));
    trial.refuse(13, new(SELL, 2, 2, 7, 2));
}

#[test]
fn replace_takes_a_new_total() {
    let mut trial = Trial::wide(&[ONE]);
    trial.accept(new(BUY, 1, 1, 1, 10));
    trial.accept(fill(1, 4));
    trial.accept(replace(1, 20));
    assert_eq!(trial.instrument(1, 1), (4, 20, -4));
    trial.accept(replace(1, 5));
    assert_eq!(trial.instrument(1, 1), (4, 5, -4));
    trial.refuse(12, replace(1, 4));
    trial.refuse(12, replace(1, 3));
    trial.accept(replace(1, 5));
    trial.accept(cancel(1));
    assert_eq!(trial.instrument(1, 1), (4, 4, -4));
}

#[test]
fn total_is_from_1_to_1_000_000() {
    let mut trial = Trial::wide(&[ONE]);
    trial.accept(new(BUY, 1, 1, 1, 10));
    trial.refuse(9, replace(1, 0));
    trial.refuse(9, replace(1, -1));
    trial.refuse(9, replace(1, 1_000_001));
    trial.accept(replace(1, 1_000_000));
    trial.accept(replace(1, 1));
}

#[test]
fn rising_replace_is_sized_by_its_new_total() {
    let mut trial = Trial::wide(&[ONE]);
    trial.accept(new(BUY, 1, 1, 1, 10));
    trial.accept(new(SELL, 1, 1, 2, 10));
    trial.accept(fill(1, 9));
    trial.accept(fill(2, 9));
    trial.accept(own_line(1, 1, [12, 13, WIDE, WIDE]));
    trial.refuse(19, replace(1, 13));
    trial.accept(replace(1, 12));
    trial.refuse(20, replace(2, 14));
    trial.accept(replace(2, 13));
}

#[test]
fn rising_replace_is_counted_once_at_its_new_total_less_filled() {
    let mut trial = Trial::wide(&[ONE]);
    trial.accept(balance(1, 1, -1));
    trial.accept(new(BUY, 1, 1, 1, 10));
    trial.accept(fill(1, 4));
    trial.accept(own_line(1, 1, [WIDE, WIDE, 14, 0]));
    trial.refuse(21, replace(1, 16));
    trial.accept(group_line(1, 1, 13, 0));
    trial.refuse(23, replace(1, 15));
    trial.accept(group_line(1, 1, 14, 0));
    trial.accept(replace(1, 15));
    assert_eq!(trial.instrument(1, 1), (3, 14, -3));
}

#[test]
fn rising_replace_of_a_sell_is_judged_short() {
    let mut trial = Trial::wide(&[ONE]);
    trial.accept(balance(1, 1, 1));
    trial.accept(new(SELL, 1, 1, 1, 10));
    trial.accept(fill(1, 4));
    trial.accept(own_line(1, 1, [WIDE, WIDE, 0, 14]));
    trial.refuse(22, replace(1, 16));
    trial.accept(group_line(1, 1, 0, 13));
    trial.refuse(24, replace(1, 15));
    trial.accept(group_line(1, 1, 0, 14));
    trial.accept(replace(1, 15));
    assert_eq!(trial.instrument(1, 1), (-3, -3, 14));
}

#[test]
fn replace_that_does_not_rise_is_never_judged_by_limits() {
    let mut trial = Trial::wide(&[ONE]);
    trial.accept(new(BUY, 1, 1, 1, 10));
    trial.accept(own_line(1, 1, [-1; 4]));
    trial.accept(default_line(1, 1, [-1; 4]));
    trial.accept(group_line(1, 1, -1, -1));
    trial.refuse(17, replace(1, 11));
    trial.accept(replace(1, 10));
    trial.accept(replace(1, 9));
    trial.accept(default_line(1, 1, [0; 4]));
    trial.accept(group_line(1, 1, 0, 0));
    trial.refuse(19, replace(1, 10));
    trial.accept(replace(1, 8));
}

#[test]
fn rising_replace_passes_18_with_256_open() {
    let mut trial = Trial::wide(&[ONE]);
    for id in 1..=256 {
        trial.accept(new(BUY, 1, 1, id, 1));
    }
    trial.accept(replace(256, 2));
    assert_eq!(trial.instrument(1, 1), (0, 257, 0));
}

#[test]
fn trading_mark_stays_once_the_orders_have_closed() {
    let mut trial = two_accounts();
    trial.accept(balance(1, 1, 5));
    trial.accept(balance(1, 1, 6));
    trial.accept(new(BUY, 1, 1, 1, 1));
    trial.accept(cancel(1));
    assert_eq!(open_orders(&trial), []);
    trial.refuse(10, balance(1, 1, 5));
    trial.refuse(10, balance(1, 2, 5));
    trial.accept(balance(2, 1, 5));
}

#[test]
fn refused_new_sets_no_trading_mark() {
    let mut trial = two_accounts();
    trial.accept(own_line(1, 1, [0; 4]));
    trial.refuse(19, new(BUY, 1, 1, 1, 1));
    trial.accept(balance(1, 1, 5));
    assert_eq!(trial.instrument(1, 1), (5, 5, -5));
}

#[test]
fn balance_runs_to_1_000_000_000_either_way() {
    let mut trial = Trial::wide(&[ONE]);
    trial.refuse(9, balance(1, 1, 1_000_000_001));
    trial.refuse(9, balance(1, 1, -1_000_000_001));
    trial.accept(balance(1, 1, 1_000_000_000));
    trial.accept(balance(1, 1, -1_000_000_000));
    assert_eq!(
        trial.instrument(1, 1),
        (-1_000_000_000, -1_000_000_000, 1_000_000_000)
    );
}
