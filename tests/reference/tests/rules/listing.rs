//! Document 01's listing.

use crate::trial::{default_line, group_line, one_group};
use wire::{balance, cancel, fill, new, BUY, SELL};

const DAY: &[u8] = include_bytes!("../../../../samples/listing.day");
const OUT: &[u8] = include_bytes!("../../../../samples/listing.out");

/// The listing's input, as document 01 puts it in words.
fn input() -> Vec<u8> {
    let mut input = one_group(&[10_000, -5_000]).bytes();
    for event in [
        default_line(1, 1, [100, 100, 100, 100]),
        group_line(1, 1, 60, 60),
        balance(1, 1, -2),
        new(BUY, 1, 1, 7, 62),
        new(SELL, 1, 2, 8, 1),
        fill(7, 12),
        new(BUY, 1, 2, 9, 4),
        cancel(7),
    ] {
        input.extend(event.bytes());
    }
    input
}

#[test]
fn sample_holds_the_input() {
    assert_eq!(input(), DAY);
}

#[test]
fn day_prints_the_output() {
    let mut output = Vec::new();
    reference::day(DAY, &mut output).unwrap();
    assert_eq!(
        String::from_utf8(output).unwrap(),
        std::str::from_utf8(OUT).unwrap()
    );
}

#[test]
fn sample_holds_the_output() {
    let lines = [
        "R 0",
        "E 1 0",
        "E 2 0",
        "E 3 0",
        "E 4 0",
        "E 5 23",
        "E 6 0",
        "E 7 0",
        "E 8 0",
        "I 1 1 10 10 -10",
        "I 1 2 0 4 0",
        "G 1 1 100000 -80000",
    ];
    let whole: String = lines.iter().map(|line| format!("{line}\n")).collect();
    assert_eq!(OUT, whole.as_bytes());
}
