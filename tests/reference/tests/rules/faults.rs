//! The plausible faults that document 01 names, each told apart by exact numbers.

use crate::trial::{default_line, group_line, one_group, own_line, Trial, ONE, WIDE};
use wire::{balance, new, BUY, SELL};

#[test]
fn buys_are_not_netted_against_sells() {
    let mut trial = Trial::wide(&[ONE]);
    trial.accept(new(BUY, 1, 1, 1, 30));
    trial.accept(new(SELL, 1, 1, 2, 20));
    assert_eq!(trial.instrument(1, 1), (0, 30, 20));
    assert_eq!(trial.group(1, 1), (300_000, 200_000));
    trial.accept(own_line(1, 1, [WIDE, WIDE, 40, 40]));
    trial.refuse(21, new(BUY, 1, 1, 3, 11));
    trial.refuse(22, new(SELL, 1, 1, 3, 21));
    trial.accept(new(BUY, 1, 1, 3, 10));
    trial.accept(new(SELL, 1, 1, 4, 20));
}

#[test]
fn balance_is_signed() {
    let mut trial = Trial::wide(&[ONE]);
    trial.accept(balance(1, 1, -2));
    trial.accept(own_line(1, 1, [100, 100, 10, 10]));
    trial.accept(new(BUY, 1, 1, 1, 12));
    trial.refuse(21, new(BUY, 1, 1, 2, 1));
    trial.accept(new(SELL, 1, 1, 2, 8));
    trial.refuse(22, new(SELL, 1, 1, 3, 1));
}

#[test]
fn sell_is_not_tested_against_lci_after_the_limit_was_lowered() {
    let mut trial = Trial::wide(&[ONE]);
    trial.accept(new(BUY, 1, 1, 1, 50));
    trial.accept(own_line(1, 1, [WIDE, WIDE, 10, 5]));
    trial.refuse(21, new(BUY, 1, 1, 2, 1));
    trial.accept(new(SELL, 1, 1, 2, 5));
    trial.refuse(22, new(SELL, 1, 1, 3, 1));
}

#[test]
fn buy_is_not_tested_against_lvi_after_the_limit_was_lowered() {
    let mut trial = Trial::wide(&[ONE]);
    trial.accept(new(SELL, 1, 1, 1, 50));
    trial.accept(own_line(1, 1, [WIDE, WIDE, 5, 10]));
    trial.refuse(22, new(SELL, 1, 1, 2, 1));
    trial.accept(new(BUY, 1, 1, 2, 5));
}

#[test]
fn group_side_is_not_tested_where_the_order_moves_the_other() {
    let mut trial = Trial::wide(&[ONE]);
    trial.accept(new(BUY, 1, 1, 1, 50));
    trial.accept(group_line(1, 1, 10, 5));
    trial.refuse(23, new(BUY, 1, 1, 2, 1));
    trial.accept(new(SELL, 1, 1, 2, 5));
    trial.refuse(24, new(SELL, 1, 1, 3, 1));
}

#[test]
fn group_side_goes_by_the_sign_of_the_weight() {
    let mut trial = Trial::wide(&[ONE, -ONE]);
    trial.accept(group_line(1, 1, 0, WIDE));
    trial.refuse(23, new(BUY, 1, 1, 1, 1));
    trial.refuse(23, new(SELL, 1, 2, 1, 1));
    trial.accept(new(SELL, 1, 1, 1, 1));
    trial.accept(new(BUY, 1, 2, 2, 1));

    let mut trial = Trial::wide(&[ONE, -ONE]);
    trial.accept(group_line(1, 1, WIDE, 0));
    trial.refuse(24, new(SELL, 1, 1, 1, 1));
    trial.refuse(24, new(BUY, 1, 2, 1, 1));
    trial.accept(new(BUY, 1, 1, 1, 1));
    trial.accept(new(SELL, 1, 2, 2, 1));
}

#[test]
fn default_figures_are_not_filled_into_a_set_own_line() {
    let mut trial = Trial::open(&one_group(&[ONE]));
    trial.accept(default_line(1, 1, [100, 100, 100, 100]));
    trial.accept(group_line(1, 1, WIDE, WIDE));
    trial.accept(own_line(1, 1, [0, 100, 100, 100]));
    trial.refuse(19, new(BUY, 1, 1, 1, 1));
    trial.accept(own_line(1, 1, [100, 0, 100, 100]));
    trial.refuse(20, new(SELL, 1, 1, 1, 1));
    trial.accept(own_line(1, 1, [100, 100, 0, 100]));
    trial.refuse(21, new(BUY, 1, 1, 1, 1));
    trial.accept(own_line(1, 1, [100, 100, 100, 0]));
    trial.refuse(22, new(SELL, 1, 1, 1, 1));
}
