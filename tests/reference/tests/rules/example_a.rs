//! Example A of document 000 (tables 1 to 7): DI futures in one group, netted over expiries.

use crate::trial::{default_line, group_line, one_group, own_line, Trial, WIDE};
use wire::{balance, new, Fields, BUY, SELL};

/// Expiry, weight in ten-thousandths, largest order on both sides, limit on both sides.
const SERIES: [(&str, i32, i64, i64); 30] = [
    ("H08", 400, 5_000, 150_000),
    ("J08", 1_300, 5_000, 150_000),
    ("K08", 2_100, 5_000, 150_000),
    ("M08", 2_900, 5_000, 150_000),
    ("N08", 3_800, 5_000, 132_000),
    ("V08", 6_300, 5_000, 79_000),
    ("F09", 8_800, 5_000, 57_000),
    ("J09", 11_300, 2_500, 44_000),
    ("N09", 13_800, 2_500, 36_000),
    ("V09", 16_300, 2_500, 31_000),
    ("F10", 18_800, 2_500, 27_000),
    ("J10", 21_300, 2_500, 23_000),
    ("N10", 23_800, 2_500, 21_000),
    ("V10", 26_300, 2_500, 19_000),
    ("F11", 28_800, 2_500, 17_000),
    ("J11", 31_300, 2_500, 16_000),
    ("N11", 33_800, 2_500, 15_000),
    ("V11", 36_300, 2_500, 14_000),
    ("F12", 38_800, 2_500, 13_000),
    ("J12", 41_300, 2_500, 12_000),
    ("N12", 43_800, 2_500, 11_000),
    ("V12", 46_300, 2_500, 11_000),
    ("F13", 48_800, 2_500, 10_000),
    ("V13", 56_300, 1_000, 9_000),
    ("F14", 58_800, 1_000, 9_000),
    ("F15", 68_800, 1_000, 7_000),
    ("F16", 78_800, 1_000, 6_000),
    ("F17", 88_800, 1_000, 6_000),
    ("F18", 98_800, 1_000, 5_000),
    ("F22", 138_900, 1_000, 4_000),
];

/// Ten-thousandths in one.
const ONE: i64 = 10_000;

fn number(expiry: &str) -> u16 {
    let place = SERIES.iter().position(|series| series.0 == expiry);
    place.unwrap() as u16 + 1
}

fn sell(expiry: &str, id: u64, quantity: i64) -> Fields {
    new(SELL, 1, number(expiry), id, quantity)
}

fn buy(expiry: &str, id: u64, quantity: i64) -> Fields {
    new(BUY, 1, number(expiry), id, quantity)
}

/// Table 4: the starting balances and orders, entered in pieces under wide lines; the example's
/// lines are then set.
fn table_4() -> Trial {
    let weights: Vec<i32> = SERIES.iter().map(|series| series.1).collect();
    let mut trial = Trial::open(&one_group(&weights));
    trial.accept(default_line(1, 1, [WIDE; 4]));
    trial.accept(group_line(1, 1, WIDE, WIDE));
    trial.accept(balance(1, number("H08"), 100_000));
    trial.accept(balance(1, number("N10"), -10_000));
    trial.accept(balance(1, number("F18"), -5_000));
    for piece in 0..10 {
        trial.accept(buy("H08", 100 + piece, 5_000));
    }
    for piece in 0..2 {
        trial.accept(buy("N10", 200 + piece, 2_500));
        trial.accept(sell("N10", 300 + piece, 2_500));
    }
    for (expiry, _, size, limit) in SERIES {
        trial.accept(own_line(1, number(expiry), [size, size, limit, limit]));
    }
    trial.accept(group_line(1, 1, 150_000, 150_000));
    trial
}

/// The desk with the order applied, the instrument's line and the group's widened first.
fn applied(order: Fields) -> Trial {
    let mut trial = table_4();
    trial.accept(own_line(1, order.item, [WIDE; 4]));
    trial.accept(group_line(1, 1, WIDE, WIDE));
    trial.accept(order);
    trial
}

#[test]
fn table_4_starting_positions() {
    let trial = table_4();
    let position = |expiry| trial.instrument(1, number(expiry));
    assert_eq!(position("H08"), (100_000, 150_000, -100_000));
    assert_eq!(position("N10"), (-10_000, -5_000, 15_000));
    assert_eq!(position("F18"), (-5_000, -5_000, 5_000));
    assert_eq!(position("F22"), (0, 0, 0));
    assert_eq!(trial.group(1, 1), (-55_300 * ONE, 81_100 * ONE));
}

#[test]
fn table_5_sell_10_000_n10() {
    let order = sell("N10", 1, 10_000);
    table_4().refuse(20, order);
    let trial = applied(order);
    assert_eq!(
        trial.instrument(1, number("N10")),
        (-10_000, -5_000, 25_000)
    );
    assert_eq!(trial.group(1, 1), (-55_300 * ONE, 104_900 * ONE));
}

#[test]
fn table_5_fails_lvi_too() {
    let mut trial = table_4();
    trial.accept(own_line(1, number("N10"), [2_500, 10_000, 21_000, 21_000]));
    trial.refuse(22, sell("N10", 1, 10_000));
    trial.accept(own_line(1, number("N10"), [2_500, 10_000, 21_000, 25_000]));
    trial.accept(sell("N10", 1, 10_000));
}

#[test]
fn table_5_keeps_within_lvc() {
    let mut trial = table_4();
    trial.accept(own_line(1, number("N10"), [WIDE; 4]));
    trial.accept(group_line(1, 1, 0, 104_899));
    trial.refuse(24, sell("N10", 1, 10_000));
    trial.accept(group_line(1, 1, 0, 104_900));
    trial.accept(sell("N10", 1, 10_000));
}

#[test]
fn table_6_sell_200_000_h08() {
    let order = sell("H08", 1, 200_000);
    table_4().refuse(20, order);
    let trial = applied(order);
    assert_eq!(
        trial.instrument(1, number("H08")),
        (100_000, 150_000, 100_000)
    );
    assert_eq!(trial.group(1, 1), (-55_300 * ONE, 89_100 * ONE));
}

#[test]
fn table_6_fails_tvi_alone() {
    let mut trial = table_4();
    trial.accept(own_line(
        1,
        number("H08"),
        [5_000, 200_000, 150_000, 150_000],
    ));
    trial.accept(sell("H08", 1, 200_000));
}

#[test]
fn table_7_buy_1_000_f18() {
    let mut trial = table_4();
    trial.refuse(20, sell("N10", 1, 10_000));
    trial.refuse(20, sell("H08", 2, 200_000));
    trial.accept(buy("F18", 3, 1_000));
    assert_eq!(trial.instrument(1, number("F18")), (-5_000, -4_000, 5_000));
    assert_eq!(trial.group(1, 1), (-45_420 * ONE, 81_100 * ONE));
}

#[test]
fn table_7_reaches_tci() {
    table_4().refuse(19, buy("F18", 3, 1_001));
}
