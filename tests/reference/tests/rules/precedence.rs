//! The first failed question gives the number: an event that fails many is put right step by step.

use crate::trial::{default_line, group_line, own_line, Trial, ONE, WIDE};
use crate::{Lent, MEMORY};
use wire::{balance, block, block_level, cancel, fill, limit, new, replace};
use wire::{Fields, RosterSpec, BUY, SELL};

/// Not on any roster.
const UNKNOWN: u16 = 99;

/// Two accounts, one instrument of this weight; account 1 has 256 orders of 10 open on this side,
/// with ids 1 to 256, and is then blocked in every way and left without lines.
fn stopped_desk(side: u8, weight: i32) -> Trial {
    let mut trial = Trial::open(&RosterSpec {
        accounts: 2,
        groups: 1,
        groups_of: vec![1],
        instruments: vec![(1, weight)],
    });
    trial.accept(default_line(1, 1, [WIDE; 4]));
    trial.accept(group_line(1, 1, WIDE, WIDE));
    for id in 1..=256 {
        trial.accept(new(side, 1, 1, id, 10));
    }
    trial.accept(default_line(1, 1, [-1; 4]));
    trial.accept(group_line(1, 1, -1, -1));
    trial.accept(block(block_level::ACCOUNT, 1, 0, 1));
    trial.accept(block(block_level::INSTRUMENT, 0, 1, 1));
    trial.accept(block(block_level::GROUP, 1, 1, 1));
    trial
}

/// A memory without a desk answers 5, and a desk answers 6 to the event with its zero byte set.
fn refused_by_5_and_6(trial: &mut Trial, event: Fields) {
    let junk = Fields { zero: 1, ..event };
    assert_eq!(Lent::new(MEMORY).event(&junk.bytes()), 5);
    trial.refuse(6, junk);
}

/// The blocks of `stopped_desk` are lifted one by one, then tight lines are set: the event is
/// refused by 14, 15, 16 and 17.
fn lift_blocks(trial: &mut Trial, event: Fields) {
    trial.refuse(14, event);
    trial.accept(block(block_level::ACCOUNT, 1, 0, 0));
    trial.refuse(15, event);
    trial.accept(block(block_level::INSTRUMENT, 0, 1, 0));
    trial.refuse(16, event);
    trial.accept(block(block_level::GROUP, 1, 1, 0));
    trial.refuse(17, event);
    trial.accept(default_line(1, 1, [0; 4]));
    trial.refuse(17, event);
    trial.accept(default_line(1, 1, [-1; 4]));
    trial.accept(group_line(1, 1, 0, 0));
    trial.refuse(17, event);
    trial.accept(default_line(1, 1, [0; 4]));
}

/// The tight lines are widened one figure at a time: the event is refused by these three numbers,
/// for its size, its instrument and its group, and at last accepted.
fn widen_lines(trial: &mut Trial, event: Fields, numbers: [u8; 3]) {
    let [size, instrument, group] = numbers;
    trial.refuse(size, event);
    trial.accept(own_line(1, 1, [WIDE, WIDE, 0, 0]));
    trial.refuse(instrument, event);
    trial.accept(own_line(1, 1, [WIDE; 4]));
    trial.refuse(group, event);
    trial.accept(group_line(1, 1, WIDE, WIDE));
    trial.accept(event);
}

/// The numbers of size, instrument and group for each side and sign of the weight.
const LIMIT_NUMBERS: [(u8, i32, [u8; 3]); 4] = [
    (BUY, ONE, [19, 21, 23]),
    (BUY, -ONE, [19, 21, 24]),
    (SELL, ONE, [20, 22, 24]),
    (SELL, -ONE, [20, 22, 23]),
];

#[test]
fn new_in_order() {
    for (side, weight, numbers) in LIMIT_NUMBERS {
        let mut trial = stopped_desk(side, weight);
        let mut event = new(side, UNKNOWN, UNKNOWN, 256, 0);
        refused_by_5_and_6(&mut trial, event);
        trial.refuse(7, event);
        event.account = 1;
        trial.refuse(8, event);
        event.item = 1;
        trial.refuse(9, event);
        event.figures[0] = 1;
        trial.refuse(13, event);
        event.id = 257;
        lift_blocks(&mut trial, event);
        trial.refuse(18, event);
        trial.accept(cancel(1));
        widen_lines(&mut trial, event, numbers);
    }
}

#[test]
fn rising_replace_in_order() {
    for (side, weight, numbers) in LIMIT_NUMBERS {
        let mut trial = stopped_desk(side, weight);
        let mut event = replace(257, 0);
        refused_by_5_and_6(&mut trial, event);
        trial.refuse(9, event);
        event.figures[0] = 11;
        trial.refuse(11, event);
        event.id = 256;
        lift_blocks(&mut trial, event);
        widen_lines(&mut trial, event, numbers);
    }
}

#[test]
fn falling_replace_in_order() {
    let mut trial = stopped_desk(BUY, ONE);
    trial.accept(fill(256, 9));
    let mut event = replace(256, 0);
    refused_by_5_and_6(&mut trial, event);
    trial.refuse(9, event);
    event.figures[0] = 9;
    trial.refuse(12, event);
    event.figures[0] = 10;
    trial.accept(event);
}

#[test]
fn fill_in_order() {
    let mut trial = stopped_desk(SELL, ONE);
    let mut event = fill(257, 1_000_001);
    refused_by_5_and_6(&mut trial, event);
    trial.refuse(9, event);
    event.id = 256;
    trial.refuse(9, event);
    event.figures[0] = 1_000_000;
    trial.refuse(12, event);
    event.id = 257;
    trial.refuse(11, event);
    event.id = 256;
    event.figures[0] = 10;
    trial.accept(event);
}

#[test]
fn cancel_in_order() {
    let mut trial = stopped_desk(SELL, ONE);
    refused_by_5_and_6(&mut trial, cancel(257));
    trial.refuse(11, cancel(257));
    trial.accept(cancel(256));
}

#[test]
fn balance_in_order() {
    let mut trial = stopped_desk(BUY, ONE);
    let mut event = balance(UNKNOWN, UNKNOWN, 1_000_000_001);
    refused_by_5_and_6(&mut trial, event);
    trial.refuse(7, event);
    event.account = 1;
    trial.refuse(8, event);
    event.item = 1;
    trial.refuse(9, event);
    event.figures[0] = 1_000_000_000;
    trial.refuse(10, event);
    event.account = 2;
    trial.accept(event);
}

#[test]
fn limit_in_order() {
    for level in 1..=3 {
        let mut trial = stopped_desk(BUY, ONE);
        let mut event = limit(level, UNKNOWN, UNKNOWN, [-2, 0, 0, 0]);
        refused_by_5_and_6(&mut trial, event);
        trial.refuse(7, event);
        event.account = 1;
        trial.refuse(8, event);
        event.item = 1;
        trial.refuse(9, event);
        event.figures[0] = 0;
        trial.accept(event);
    }
}

#[test]
fn block_in_order() {
    let mut trial = stopped_desk(BUY, ONE);
    let mut event = block(block_level::GROUP, UNKNOWN, UNKNOWN, 2);
    refused_by_5_and_6(&mut trial, event);
    trial.refuse(7, event);
    event.account = 1;
    trial.refuse(8, event);
    event.item = 1;
    trial.refuse(9, event);
    event.figures[0] = 0;
    trial.accept(event);

    trial.refuse(7, block(block_level::ACCOUNT, UNKNOWN, 0, 2));
    trial.refuse(9, block(block_level::ACCOUNT, 1, 0, 2));
    trial.refuse(8, block(block_level::INSTRUMENT, 0, UNKNOWN, 2));
    trial.refuse(9, block(block_level::INSTRUMENT, 0, 1, 2));
}
