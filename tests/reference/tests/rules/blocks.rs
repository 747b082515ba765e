//! Blocks: whom they stop, and what they let pass.

use crate::trial::{default_line, group_line, Trial, ONE, WIDE};
use wire::block_level::{ACCOUNT, GROUP, INSTRUMENT};
use wire::{block, cancel, fill, new, replace, RosterSpec, BUY, SELL};

/// Two accounts, two groups of one contract and one instrument each, wide lines.
fn desk() -> Trial {
    let mut trial = Trial::open(&RosterSpec {
        accounts: 2,
        groups: 2,
        groups_of: vec![1, 2],
        instruments: vec![(1, ONE), (2, ONE)],
    });
    for account in 1..=2 {
        for number in 1..=2 {
            trial.accept(default_line(account, number, [WIDE; 4]));
            trial.accept(group_line(account, number, WIDE, WIDE));
        }
    }
    trial
}

/// The answers to a buy by each account of each instrument, in the order (1, 1), (1, 2), (2, 1),
/// (2, 2); none stays in the book.
fn answers(trial: &Trial) -> [u8; 4] {
    [(1, 1), (1, 2), (2, 1), (2, 2)].map(|(account, instrument)| {
        let mut lent = trial.lent.clone();
        lent.event(&new(BUY, account, instrument, 99, 1).bytes())
    })
}

#[test]
fn account_block_stops_one_account() {
    let mut trial = desk();
    trial.accept(block(ACCOUNT, 1, 0, 1));
    assert_eq!(answers(&trial), [14, 14, 0, 0]);
    trial.accept(block(ACCOUNT, 1, 0, 0));
    assert_eq!(answers(&trial), [0; 4]);
}

#[test]
fn instrument_block_stops_one_instrument_for_all() {
    let mut trial = desk();
    trial.accept(block(INSTRUMENT, 0, 2, 1));
    assert_eq!(answers(&trial), [0, 15, 0, 15]);
    trial.accept(block(INSTRUMENT, 0, 2, 0));
    assert_eq!(answers(&trial), [0; 4]);
}

#[test]
fn group_block_stops_one_group_for_one_account() {
    let mut trial = desk();
    trial.accept(block(GROUP, 2, 1, 1));
    assert_eq!(answers(&trial), [0, 0, 16, 0]);
    trial.accept(block(GROUP, 2, 1, 0));
    assert_eq!(answers(&trial), [0; 4]);
}

#[test]
fn blocks_are_kept_apart() {
    let mut trial = desk();
    trial.accept(block(ACCOUNT, 1, 0, 1));
    trial.accept(block(INSTRUMENT, 0, 1, 1));
    trial.accept(block(GROUP, 1, 1, 1));
    assert_eq!(answers(&trial), [14, 14, 15, 0]);
    trial.accept(block(ACCOUNT, 1, 0, 0));
    assert_eq!(answers(&trial), [15, 0, 15, 0]);
    trial.accept(block(INSTRUMENT, 0, 1, 0));
    assert_eq!(answers(&trial), [16, 0, 0, 0]);
}

#[test]
fn setting_a_block_twice_and_lifting_it_once_lifts_it() {
    let mut trial = desk();
    trial.accept(block(ACCOUNT, 1, 0, 1));
    trial.accept(block(ACCOUNT, 1, 0, 1));
    trial.accept(block(ACCOUNT, 1, 0, 0));
    trial.accept(block(ACCOUNT, 1, 0, 0));
    assert_eq!(answers(&trial), [0; 4]);
}

#[test]
fn figure_of_a_block_is_0_or_1() {
    let mut trial = desk();
    for figure in [-1, 2, 256, i64::MIN] {
        trial.refuse(9, block(ACCOUNT, 1, 0, figure));
        trial.refuse(9, block(INSTRUMENT, 0, 1, figure));
        trial.refuse(9, block(GROUP, 1, 1, figure));
    }
}

/// Each block stops a rising REPLACE; a falling or equal one, a FILL and a CANCEL pass.
#[test]
fn only_new_and_rising_replace_are_stopped() {
    for (blocking, number) in [
        (block(ACCOUNT, 1, 0, 1), 14),
        (block(INSTRUMENT, 0, 1, 1), 15),
        (block(GROUP, 1, 1, 1), 16),
    ] {
        let mut trial = desk();
        trial.accept(new(SELL, 1, 1, 5, 10));
        trial.accept(blocking);
        trial.refuse(number, new(SELL, 1, 1, 6, 1));
        trial.refuse(number, replace(5, 11));
        trial.accept(replace(5, 10));
        trial.accept(replace(5, 9));
        trial.refuse(number, replace(5, 10));
        trial.accept(fill(5, 1));
        trial.accept(cancel(5));
        assert_eq!(trial.instrument(1, 1), (-1, -1, 1));
    }
}

#[test]
fn blocks_do_not_stop_limits_and_balances() {
    let mut trial = desk();
    trial.accept(block(ACCOUNT, 1, 0, 1));
    trial.accept(block(INSTRUMENT, 0, 1, 1));
    trial.accept(block(GROUP, 1, 1, 1));
    trial.accept(default_line(1, 1, [1; 4]));
    trial.accept(group_line(1, 1, 1, 1));
    trial.accept(wire::balance(1, 1, 3));
}
