//! Reading positions: refused by 5, 7 and 8 in that order.

use crate::trial::{default_line, group_line, Trial, ONE};
use crate::{Lent, MEMORY};
use reference::{GroupPosition, InstrumentPosition};
use wire::{balance, new, RosterSpec, SELL};

/// Three accounts, two groups, one contract in each, four instruments.
fn desk() -> Trial {
    Trial::open(&RosterSpec {
        accounts: 3,
        groups: 2,
        groups_of: vec![1, 2],
        instruments: vec![(1, ONE), (2, ONE), (2, -ONE), (2, 0)],
    })
}

#[test]
fn numbers_on_the_roster_are_read() {
    let trial = desk();
    for account in 1..=3 {
        for instrument in 1..=4 {
            assert_eq!(trial.instrument(account, instrument), (0, 0, 0));
        }
        for group in 1..=2 {
            assert_eq!(trial.group(account, group), (0, 0));
        }
    }
}

#[test]
fn by_5_before_7_and_8() {
    for length in [0, MEMORY - 1, MEMORY] {
        let lent = Lent::new(length);
        for (account, item) in [(1, 1), (0, 0), (99, 99)] {
            assert_eq!(lent.instrument_position(account, item), Err(5));
            assert_eq!(lent.group_position(account, item), Err(5));
        }
    }
}

#[test]
fn by_7_before_8() {
    let trial = desk();
    for account in [0, 4, 256 + 1, u16::MAX] {
        for item in [0, 1, 99] {
            assert_eq!(trial.lent.instrument_position(account, item), Err(7));
            assert_eq!(trial.lent.group_position(account, item), Err(7));
        }
    }
}

#[test]
fn by_8() {
    let trial = desk();
    for instrument in [0, 5, 256 + 1, u16::MAX] {
        assert_eq!(trial.lent.instrument_position(3, instrument), Err(8));
    }
    for group in [0, 3, 256 + 1, u16::MAX] {
        assert_eq!(trial.lent.group_position(3, group), Err(8));
    }
}

#[test]
fn positions_have_their_names() {
    let mut trial = Trial::wide(&[ONE]);
    trial.accept(balance(1, 1, 3));
    trial.accept(new(SELL, 1, 1, 1, 5));
    let instrument = InstrumentPosition {
        balance: 3,
        long: 3,
        short: 2,
    };
    let group = GroupPosition {
        long: 30_000,
        short: 20_000,
    };
    assert_eq!(trial.lent.instrument_position(1, 1), Ok(instrument));
    assert_eq!(trial.lent.group_position(1, 1), Ok(group));
}

#[test]
fn group_sums_only_its_own_instruments() {
    let mut trial = desk();
    trial.accept(balance(2, 1, 1));
    trial.accept(balance(2, 2, 10));
    trial.accept(balance(2, 3, 100));
    trial.accept(balance(2, 4, 1_000));
    assert_eq!(trial.group(2, 1), (10_000, -10_000));
    assert_eq!(trial.group(2, 2), (-900_000, 900_000));
    assert_eq!(trial.group(1, 2), (0, 0));
    assert_eq!(trial.group(3, 2), (0, 0));
}

#[test]
fn group_without_contracts_and_contract_without_instruments() {
    let mut trial = Trial::open(&RosterSpec {
        accounts: 1,
        groups: 3,
        groups_of: vec![1, 2],
        instruments: vec![(1, ONE)],
    });
    trial.accept(default_line(1, 2, [7; 4]));
    trial.accept(group_line(1, 2, 7, 7));
    trial.accept(group_line(1, 3, 7, 7));
    trial.accept(balance(1, 1, 5));
    assert_eq!(trial.group(1, 1), (50_000, -50_000));
    assert_eq!(trial.group(1, 2), (0, 0));
    assert_eq!(trial.group(1, 3), (0, 0));
}

#[test]
fn largest_group_positions() {
    let mut trial = Trial::open(&crate::trial::one_group(&[1_000_000; 32]));
    for instrument in 1..=32 {
        trial.accept(balance(1, instrument, -1_000_000_000));
    }
    let whole = 32_000_000_000_000_000;
    assert_eq!(trial.group(1, 1), (-whole, whole));
}
