//! Example B of document 000 (tables 8 to 14): dollar options, puts with negative weights.

use crate::trial::{default_line, group_line, one_group, own_line, Trial, WIDE};
use wire::{balance, new, Fields, BUY, SELL};

/// Series, weight in ten-thousandths, LCI. Puts come first.
const SERIES: [(&str, i32, i64); 13] = [
    ("K8DB", -2_200, 2_000),
    ("K8D0", -9_500, 2_000),
    ("K8D5", -7_600, 2_000),
    ("K8D8", -4_000, 2_000),
    ("K8D9", -5_900, 2_000),
    ("K880", 500, 5_000),
    ("K881", 500, 5_000),
    ("K882", 500, 5_000),
    ("K883", 500, 5_000),
    ("K885", 2_400, 2_000),
    ("K886", 500, 5_000),
    ("K887", 1_200, 2_000),
    ("K888", 6_000, 2_000),
];

/// Ten-thousandths in one.
const ONE: i64 = 10_000;

fn number(series: &str) -> u16 {
    let place = SERIES.iter().position(|each| each.0 == series);
    place.unwrap() as u16 + 1
}

/// Table 11: the starting balances and orders, entered in pieces under wide lines; the example's
/// lines are then set.
fn table_11() -> Trial {
    let weights: Vec<i32> = SERIES.iter().map(|series| series.1).collect();
    let mut trial = Trial::open(&one_group(&weights));
    trial.accept(default_line(1, 1, [WIDE; 4]));
    trial.accept(group_line(1, 1, WIDE, WIDE));
    for series in ["K8D8", "K8D0", "K8D9", "K8DB"] {
        trial.accept(balance(1, number(series), 2_000));
    }
    for (place, series) in ["K8D8", "K8D0"].into_iter().enumerate() {
        let id = 100 + 2 * place as u64;
        trial.accept(new(SELL, 1, number(series), id, 1_000));
        trial.accept(new(SELL, 1, number(series), id + 1, 1_000));
    }
    for (series, _, lci) in SERIES {
        trial.accept(own_line(1, number(series), [1_000, 1_000, lci, 0]));
    }
    trial.accept(group_line(1, 1, 5_000, 5_000));
    trial
}

/// The desk with the order applied, the instrument's line and the group's widened first.
fn applied(order: Fields) -> Trial {
    let mut trial = table_11();
    trial.accept(own_line(1, order.item, [WIDE; 4]));
    trial.accept(group_line(1, 1, WIDE, WIDE));
    trial.accept(order);
    trial
}

#[test]
fn table_11_starting_positions() {
    let trial = table_11();
    let position = |series| trial.instrument(1, number(series));
    assert_eq!(position("K8D8"), (2_000, 2_000, 0));
    assert_eq!(position("K8D0"), (2_000, 2_000, 0));
    assert_eq!(position("K8D9"), (2_000, 2_000, -2_000));
    assert_eq!(position("K8DB"), (2_000, 2_000, -2_000));
    assert_eq!(trial.group(1, 1), (-1_620 * ONE, 4_320 * ONE));
}

#[test]
fn table_12_buy_1_000_of_the_put_k8d5() {
    let order = new(BUY, 1, number("K8D5"), 1, 1_000);
    table_11().refuse(24, order);
    let trial = applied(order);
    assert_eq!(trial.instrument(1, number("K8D5")), (0, 1_000, 0));
    assert_eq!(trial.group(1, 1), (-1_620 * ONE, 5_080 * ONE));
}

#[test]
fn table_12_fails_lvc_alone() {
    let order = new(BUY, 1, number("K8D5"), 1, 1_000);
    let mut trial = table_11();
    trial.accept(group_line(1, 1, 0, 5_079));
    trial.refuse(24, order);
    trial.accept(group_line(1, 1, 0, 5_080));
    trial.accept(order);
}

#[test]
fn table_13_sell_1_000_of_the_call_k888() {
    let order = new(SELL, 1, number("K888"), 1, 1_000);
    table_11().refuse(22, order);
    let trial = applied(order);
    assert_eq!(trial.instrument(1, number("K888")), (0, 0, 1_000));
    assert_eq!(trial.group(1, 1), (-1_620 * ONE, 4_920 * ONE));
}

#[test]
fn table_13_fails_lvi_alone() {
    let order = new(SELL, 1, number("K888"), 1, 1_000);
    let mut trial = table_11();
    trial.accept(own_line(1, number("K888"), [1_000, 1_000, 2_000, 1_000]));
    trial.accept(order);
}

#[test]
fn table_14_buy_1_000_of_the_call_k885() {
    let mut trial = table_11();
    trial.refuse(24, new(BUY, 1, number("K8D5"), 1, 1_000));
    trial.refuse(22, new(SELL, 1, number("K888"), 2, 1_000));
    trial.accept(new(BUY, 1, number("K885"), 3, 1_000));
    assert_eq!(trial.instrument(1, number("K885")), (0, 1_000, 0));
    assert_eq!(trial.group(1, 1), (-1_380 * ONE, 4_320 * ONE));
}
