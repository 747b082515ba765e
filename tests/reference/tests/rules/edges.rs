//! Document 01's edges.

use crate::trial::{default_line, group_line, one_group, own_line, Trial, ONE, WIDE};
use wire::{balance, cancel, fill, new, BUY, SELL};

/// S −10,000, B 5,000, V 5,000, wide groups, and a line with this TVI and LVI.
fn table_5(tvi: i64, lvi: i64) -> Trial {
    let mut trial = Trial::wide(&[23_800]);
    trial.accept(balance(1, 1, -10_000));
    trial.accept(new(BUY, 1, 1, 1, 5_000));
    trial.accept(new(SELL, 1, 1, 2, 5_000));
    trial.accept(own_line(1, 1, [2_500, tvi, 21_000, lvi]));
    assert_eq!(trial.instrument(1, 1), (-10_000, -5_000, 15_000));
    trial
}

#[test]
fn sell_of_10_000_past_tvi_2_500_is_20() {
    table_5(2_500, 21_000).refuse(20, new(SELL, 1, 1, 3, 10_000));
}

#[test]
fn with_tvi_10_000_it_is_22_since_pvi_is_25_000() {
    table_5(10_000, 21_000).refuse(22, new(SELL, 1, 1, 3, 10_000));
    table_5(10_000, 24_999).refuse(22, new(SELL, 1, 1, 3, 10_000));
}

#[test]
fn with_lvi_25_000_too_and_groups_wide_it_is_0() {
    let mut trial = table_5(10_000, 25_000);
    trial.accept(new(SELL, 1, 1, 3, 10_000));
    assert_eq!(trial.instrument(1, 1), (-10_000, -5_000, 25_000));
}

#[test]
fn sell_of_200_000_gives_pci_150_000_and_pvi_100_000() {
    let mut trial = Trial::wide(&[400]);
    trial.accept(balance(1, 1, 100_000));
    trial.accept(new(BUY, 1, 1, 1, 50_000));
    trial.accept(new(SELL, 1, 1, 2, 200_000));
    assert_eq!(trial.instrument(1, 1), (100_000, 150_000, 100_000));
}

#[test]
fn buy_of_1_000_on_a_balance_of_minus_5_000_gives_pci_minus_4_000_and_pvi_5_000() {
    let mut trial = Trial::wide(&[98_800]);
    trial.accept(balance(1, 1, -5_000));
    trial.accept(new(BUY, 1, 1, 1, 1_000));
    assert_eq!(trial.instrument(1, 1), (-5_000, -4_000, 5_000));
}

/// S −2 and an LCI of 0.
fn limit_0() -> Trial {
    let mut trial = Trial::wide(&[ONE]);
    trial.accept(balance(1, 1, -2));
    trial.accept(own_line(1, 1, [WIDE, WIDE, 0, WIDE]));
    trial
}

#[test]
fn limit_0_lets_a_buy_of_2_pass_on_a_balance_of_minus_2() {
    let mut trial = limit_0();
    trial.accept(new(BUY, 1, 1, 1, 2));
    assert_eq!(trial.instrument(1, 1), (-2, 0, 2));
}

#[test]
fn limit_0_refuses_a_buy_of_3_by_21() {
    limit_0().refuse(21, new(BUY, 1, 1, 1, 3));
}

#[test]
fn weight_minus_5000_and_a_sell_of_1_with_lcc_0_is_23() {
    let mut trial = Trial::wide(&[-5_000]);
    trial.accept(group_line(1, 1, 0, WIDE));
    trial.refuse(23, new(SELL, 1, 1, 1, 1));
    trial.accept(group_line(1, 1, 1, 0));
    trial.accept(new(SELL, 1, 1, 1, 2));
    assert_eq!(trial.group(1, 1), (10_000, 0));
    trial.refuse(23, new(SELL, 1, 1, 2, 1));
}

#[test]
fn weight_0_has_no_group_check() {
    let mut trial = Trial::wide(&[0, ONE]);
    trial.accept(balance(1, 2, 5));
    trial.accept(new(SELL, 1, 2, 1, 20));
    trial.accept(group_line(1, 1, 0, 0));
    assert_eq!(trial.group(1, 1), (50_000, 150_000));
    trial.accept(new(BUY, 1, 1, 2, 7));
    trial.accept(new(SELL, 1, 1, 3, 9));
    assert_eq!(trial.instrument(1, 1), (0, 7, 9));
    assert_eq!(trial.group(1, 1), (50_000, 150_000));
    trial.refuse(23, new(BUY, 1, 2, 4, 1));
    trial.refuse(24, new(SELL, 1, 2, 4, 1));
}

#[test]
fn weight_0_still_needs_a_group_line() {
    let mut trial = Trial::open(&one_group(&[0]));
    trial.accept(default_line(1, 1, [WIDE; 4]));
    trial.refuse(17, new(BUY, 1, 1, 1, 1));
}

#[test]
fn quantity_1_000_000_passes_9_and_1_000_001_gives_9() {
    let mut trial = Trial::wide(&[ONE]);
    trial.refuse(9, new(BUY, 1, 1, 1, 1_000_001));
    trial.refuse(9, new(BUY, 1, 1, 1, 0));
    trial.accept(new(BUY, 1, 1, 1, 1_000_000));
    trial.refuse(9, fill(1, 1_000_001));
    trial.accept(fill(1, 1_000_000));
    assert_eq!(trial.instrument(1, 1), (1_000_000, 1_000_000, -1_000_000));
}

#[test]
fn with_256_open_a_cancel_lets_the_next_new_pass_18() {
    let mut trial = Trial::wide(&[ONE]);
    for id in 1..=256 {
        trial.accept(new(BUY, 1, 1, id, 1));
    }
    trial.refuse(18, new(BUY, 1, 1, 257, 1));
    trial.accept(cancel(128));
    trial.accept(new(BUY, 1, 1, 257, 1));
    trial.refuse(18, new(BUY, 1, 1, 128, 1));
    assert_eq!(trial.instrument(1, 1), (0, 256, 0));
}

#[test]
fn with_256_open_a_whole_fill_lets_the_next_new_pass_18() {
    let mut trial = Trial::wide(&[ONE]);
    for id in 1..=256 {
        trial.accept(new(SELL, 1, 1, id, 2));
    }
    trial.accept(fill(256, 1));
    trial.refuse(18, new(SELL, 1, 1, 257, 2));
    trial.accept(fill(256, 1));
    trial.accept(new(SELL, 1, 1, 257, 2));
}
