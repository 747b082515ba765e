//! Limit lines: what they hold, which is in force, and when one is not set.

use crate::trial::{default_line, group_line, own_line, Trial, ONE, WIDE};
use wire::{new, RosterSpec, BUY, SELL};

const UNSET: [i64; 4] = [-1; 4];

/// Two accounts, two groups; contract 1 in group 1 with instruments 1 and 2, contract 2 in group 2
/// with instrument 3. All group lines are wide and no other line is set.
fn desk() -> Trial {
    let mut trial = Trial::open(&RosterSpec {
        accounts: 2,
        groups: 2,
        groups_of: vec![1, 2],
        instruments: vec![(1, ONE), (1, ONE), (2, ONE)],
    });
    for account in 1..=2 {
        for group in 1..=2 {
            trial.accept(group_line(account, group, WIDE, WIDE));
        }
    }
    trial
}

#[test]
fn figures_stand_in_the_order_tci_tvi_lci_lvi() {
    let mut trial = desk();
    trial.accept(own_line(1, 1, [40, 30, 20, 10]));
    trial.refuse(19, new(BUY, 1, 1, 1, 41));
    trial.refuse(21, new(BUY, 1, 1, 1, 40));
    trial.refuse(21, new(BUY, 1, 1, 1, 21));
    trial.accept(new(BUY, 1, 1, 1, 20));
    trial.refuse(20, new(SELL, 1, 1, 2, 31));
    trial.refuse(22, new(SELL, 1, 1, 2, 30));
    trial.refuse(22, new(SELL, 1, 1, 2, 11));
    trial.accept(new(SELL, 1, 1, 2, 10));
}

#[test]
fn group_figures_stand_in_the_order_lcc_lvc() {
    let mut trial = desk();
    trial.accept(own_line(1, 1, [WIDE; 4]));
    trial.accept(group_line(1, 1, 20, 10));
    trial.refuse(23, new(BUY, 1, 1, 1, 21));
    trial.accept(new(BUY, 1, 1, 1, 20));
    trial.refuse(24, new(SELL, 1, 1, 2, 11));
    trial.accept(new(SELL, 1, 1, 2, 10));
}

#[test]
fn line_in_force_is_the_own_one_whole() {
    let mut trial = desk();
    trial.accept(default_line(1, 1, [5, 5, 5, 5]));
    trial.refuse(19, new(BUY, 1, 1, 1, 6));
    trial.accept(own_line(1, 1, [9, 0, 9, 0]));
    trial.refuse(19, new(BUY, 1, 1, 1, 10));
    trial.refuse(20, new(SELL, 1, 1, 1, 1));
    trial.accept(new(BUY, 1, 1, 1, 9));
    trial.refuse(19, new(BUY, 1, 2, 2, 6));
    trial.accept(new(BUY, 1, 2, 2, 5));
}

#[test]
fn own_line_needs_no_default() {
    let mut trial = desk();
    trial.refuse(17, new(BUY, 1, 1, 1, 1));
    trial.accept(own_line(1, 1, [1; 4]));
    trial.accept(new(BUY, 1, 1, 1, 1));
    trial.refuse(17, new(BUY, 1, 2, 2, 1));
}

#[test]
fn unsetting_an_own_line_brings_the_default_back() {
    let mut trial = desk();
    trial.accept(default_line(1, 1, [5, 5, 5, 5]));
    trial.accept(own_line(1, 1, [0; 4]));
    trial.refuse(19, new(BUY, 1, 1, 1, 1));
    trial.accept(own_line(1, 1, UNSET));
    trial.accept(new(BUY, 1, 1, 1, 5));
    trial.accept(default_line(1, 1, UNSET));
    trial.refuse(17, new(BUY, 1, 1, 2, 1));
}

#[test]
fn unsetting_a_line_that_is_not_set_is_accepted() {
    let mut trial = desk();
    let before = trial.lent.clone();
    trial.accept(own_line(1, 1, UNSET));
    trial.accept(default_line(1, 1, UNSET));
    assert!(trial.lent == before);
}

#[test]
fn unsetting_the_group_line_leaves_no_limits() {
    let mut trial = desk();
    trial.accept(own_line(1, 1, [WIDE; 4]));
    trial.accept(group_line(1, 1, -1, -1));
    trial.refuse(17, new(BUY, 1, 1, 1, 1));
    trial.accept(group_line(1, 1, 1, 1));
    trial.accept(new(BUY, 1, 1, 1, 1));
}

#[test]
fn zero_is_a_real_limit() {
    let mut trial = desk();
    trial.accept(own_line(1, 1, [1, 1, 0, 0]));
    trial.refuse(21, new(BUY, 1, 1, 1, 1));
    trial.refuse(22, new(SELL, 1, 1, 1, 1));
    trial.accept(own_line(1, 1, [WIDE; 4]));
    trial.accept(group_line(1, 1, 0, 0));
    trial.refuse(23, new(BUY, 1, 1, 1, 1));
    trial.refuse(24, new(SELL, 1, 1, 1, 1));
}

#[test]
fn figures_run_from_0_to_1_000_000_000() {
    let mut trial = desk();
    for place in 0..4 {
        for figure in [-2, 1_000_000_001, i64::MIN, i64::MAX] {
            let mut figures = [0; 4];
            figures[place] = figure;
            trial.refuse(9, own_line(1, 1, figures));
            trial.refuse(9, default_line(1, 1, figures));
        }
        let mut figures = [0; 4];
        figures[place] = 1_000_000_000;
        trial.accept(own_line(1, 1, figures));
        trial.accept(default_line(1, 1, figures));
    }
    trial.refuse(9, group_line(1, 1, 1_000_000_001, 0));
    trial.refuse(9, group_line(1, 1, 0, 1_000_000_001));
    trial.accept(group_line(1, 1, 1_000_000_000, 1_000_000_000));
    trial.accept(group_line(1, 1, 0, 0));
}

#[test]
fn minus_one_in_some_figures_only_is_9() {
    let mut trial = desk();
    for unset in 1..15 {
        let figures = [0, 1, 2, 3].map(|place| if unset >> place & 1 == 1 { -1 } else { 7 });
        trial.refuse(9, own_line(1, 1, figures));
        trial.refuse(9, default_line(1, 1, figures));
    }
    trial.refuse(9, group_line(1, 1, -1, 0));
    trial.refuse(9, group_line(1, 1, 0, -1));
}

#[test]
fn lines_are_of_one_account_and_one_item() {
    let mut trial = desk();
    trial.accept(default_line(1, 1, [5; 4]));
    trial.accept(group_line(2, 1, 0, 0));
    trial.refuse(17, new(BUY, 2, 1, 1, 1));
    trial.refuse(17, new(BUY, 1, 3, 1, 1));
    trial.accept(default_line(1, 2, [6; 4]));
    trial.refuse(19, new(BUY, 1, 1, 1, 6));
    trial.accept(new(BUY, 1, 3, 1, 6));
    trial.accept(own_line(2, 3, [7; 4]));
    trial.refuse(17, new(BUY, 2, 1, 2, 1));
    trial.accept(new(BUY, 2, 3, 2, 7));
    trial.accept(group_line(1, 2, 6, 0));
    trial.accept(new(BUY, 1, 1, 3, 5));
    trial.refuse(21, new(BUY, 1, 3, 4, 1));
}

#[test]
fn limit_below_a_position_is_accepted() {
    let mut trial = desk();
    trial.accept(own_line(1, 1, [WIDE; 4]));
    trial.accept(new(BUY, 1, 1, 1, 100));
    trial.accept(own_line(1, 1, [WIDE, WIDE, 99, WIDE]));
    trial.refuse(21, new(BUY, 1, 1, 2, 1));
    assert_eq!(trial.instrument(1, 1), (0, 100, 0));
}

#[test]
fn group_limit_is_compared_in_ten_thousandths() {
    let mut trial = Trial::wide(&[9_999, 1]);
    trial.accept(group_line(1, 1, 1, 0));
    trial.accept(new(BUY, 1, 1, 1, 1));
    assert_eq!(trial.group(1, 1), (9_999, 0));
    trial.refuse(23, new(BUY, 1, 2, 2, 2));
    trial.accept(new(BUY, 1, 2, 2, 1));
    assert_eq!(trial.group(1, 1), (10_000, 0));
    trial.refuse(23, new(BUY, 1, 2, 3, 1));
}
