//! A weight of −2 and a balance of −2 are stored, read and used as −2.

use crate::trial::{default_line, group_line, one_group, own_line, Trial, ONE, WIDE};
use crate::{Lent, MEMORY};
use wire::{balance, fill, new, BUY, SELL};

#[test]
fn weight_of_minus_two_is_fe_ff_ff_ff() {
    let roster = one_group(&[-2]).bytes();
    assert_eq!(
        roster,
        [1, 0, 1, 0, 1, 0, 1, 0, 1, 1, 0xfe, 0xff, 0xff, 0xff]
    );
}

#[test]
fn weight_of_minus_two_is_read_as_minus_two() {
    let mut lent = Lent::new(MEMORY);
    let roster = [1, 0, 1, 0, 1, 0, 1, 0, 1, 1, 0xfe, 0xff, 0xff, 0xff];
    assert_eq!(lent.open(&roster), 0);
    assert_eq!(lent.desk().unwrap().roster.weight, [-2]);
}

#[test]
fn balance_of_minus_two_is_fe_and_seven_times_ff() {
    let mut event = [0; 48];
    event[0] = 2;
    event[2] = 1;
    event[4] = 1;
    event[16] = 0xfe;
    event[17..24].fill(0xff);
    assert_eq!(balance(1, 1, -2).bytes(), event);
    let mut trial = Trial::wide(&[ONE]);
    assert_eq!(trial.lent.event(&event), 0);
    assert_eq!(trial.lent.desk().unwrap().book.balances[1][1], -2);
}

#[test]
fn balance_of_minus_two_gives_pci_minus_two_and_pvi_two() {
    let mut trial = Trial::wide(&[ONE]);
    trial.accept(balance(1, 1, -2));
    assert_eq!(trial.instrument(1, 1), (-2, -2, 2));
    assert_eq!(trial.group(1, 1), (-20_000, 20_000));
    trial.accept(new(BUY, 1, 1, 1, 5));
    assert_eq!(trial.instrument(1, 1), (-2, 3, 2));
    trial.accept(new(SELL, 1, 1, 2, 4));
    assert_eq!(trial.instrument(1, 1), (-2, 3, 6));
    assert_eq!(trial.group(1, 1), (30_000, 60_000));
}

#[test]
fn sound_buys_of_a_client_two_short_are_accepted() {
    let mut trial = Trial::open(&one_group(&[ONE]));
    trial.accept(default_line(1, 1, [100, 100, 0, 100]));
    trial.accept(group_line(1, 1, 0, 100));
    trial.accept(balance(1, 1, -2));
    trial.accept(new(BUY, 1, 1, 1, 1));
    trial.accept(new(BUY, 1, 1, 2, 1));
    trial.refuse(21, new(BUY, 1, 1, 3, 1));
}

#[test]
fn balance_passes_through_zero_by_fills() {
    let mut trial = Trial::wide(&[ONE]);
    trial.accept(balance(1, 1, -2));
    trial.accept(new(BUY, 1, 1, 1, 3));
    trial.accept(fill(1, 3));
    assert_eq!(trial.instrument(1, 1), (1, 1, -1));
    trial.accept(new(SELL, 1, 1, 2, 3));
    trial.accept(fill(2, 3));
    assert_eq!(trial.instrument(1, 1), (-2, -2, 2));
}

#[test]
fn weight_of_minus_two_turns_the_groups_sides() {
    let mut trial = Trial::wide(&[-2]);
    trial.accept(new(BUY, 1, 1, 1, 7));
    assert_eq!(trial.group(1, 1), (0, 14));
    trial.accept(new(SELL, 1, 1, 2, 5));
    assert_eq!(trial.group(1, 1), (10, 14));
}

#[test]
fn weight_and_balance_of_minus_two_together() {
    let mut trial = Trial::wide(&[-2]);
    trial.accept(balance(1, 1, -2));
    assert_eq!(trial.instrument(1, 1), (-2, -2, 2));
    assert_eq!(trial.group(1, 1), (4, -4));
    trial.accept(new(BUY, 1, 1, 1, 3));
    assert_eq!(trial.group(1, 1), (4, 2));
}

#[test]
fn weight_of_minus_two_is_judged_exactly() {
    let mut trial = Trial::wide(&[-2]);
    trial.accept(group_line(1, 1, 0, 1));
    trial.refuse(23, new(SELL, 1, 1, 1, 1));
    trial.refuse(24, new(BUY, 1, 1, 1, 5_001));
    trial.accept(new(BUY, 1, 1, 1, 5_000));
    assert_eq!(trial.group(1, 1), (0, 10_000));
    trial.accept(group_line(1, 1, 1, 0));
    trial.refuse(23, new(SELL, 1, 1, 2, 5_001));
    trial.accept(new(SELL, 1, 1, 2, 5_000));
    assert_eq!(trial.group(1, 1), (10_000, 10_000));
}

#[test]
fn line_of_minus_two_is_out_of_range() {
    let mut trial = Trial::wide(&[ONE]);
    trial.refuse(9, own_line(1, 1, [-2; 4]));
    trial.refuse(9, group_line(1, 1, -2, -2));
    trial.refuse(9, new(BUY, 1, 1, 1, -2));
    trial.accept(own_line(1, 1, [WIDE; 4]));
}
