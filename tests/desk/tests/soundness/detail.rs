//! The detail of an order: each side, account and instrument, and filled and remaining at the bounds
//! of the total and of their bits.

use std::collections::BTreeSet;

use days::gate::InstrumentPosition;
use days::random::Random;
use desk::layout::{Clause, Detail, Field, Part};
use reference::Side;
use wire::RosterSpec;

use crate::past::opened;
use crate::sample::Sample;

const DETAIL: Field = Field::Order(0, Part::Detail);

/// A desk of so many accounts and instruments with one open order. Accounts with odd numbers are
/// marked as trading.
fn with_one_order(accounts: u16, instruments: usize) -> Sample {
    let mut sample = opened(&RosterSpec {
        accounts,
        groups: 1,
        groups_of: vec![1],
        instruments: vec![(1, 1); instruments],
    });
    for account in (1..=accounts).step_by(2) {
        sample.desk.put_word(Field::Mark(account).word(), 1);
    }
    for field in [Field::Count, Field::Order(0, Part::Id)] {
        sample.desk.put_word(field.word(), 1);
    }
    sample
}

/// The clauses that an order breaks by what it says, on a roster of these sizes.
fn clauses(order: Detail, accounts: u16, instruments: usize) -> BTreeSet<Clause> {
    let has_account = order.account <= accounts;
    let has_instrument = usize::from(order.instrument) <= instruments;
    let total = order.filled + order.remaining;
    let broken = [
        (Clause::OrderAccount, !has_account),
        (Clause::OrderInstrument, !has_instrument),
        (Clause::Trading, has_account && order.account % 2 == 0),
        (Clause::OrderTotal, total == 0 || total > 1_000_000),
        (Clause::Remaining, order.remaining == 0),
    ];
    let broken = broken.into_iter().filter(|&(_, is_broken)| is_broken);
    broken.map(|(clause, _)| clause).collect()
}

/// What remains of the order counts for its side, account and instrument.
fn compare_position(sample: &Sample, order: Detail) {
    let remaining = order.remaining as i64;
    let (long, short) = match order.side {
        Side::Buy => (remaining, 0),
        Side::Sell => (0, remaining),
    };
    let expected = InstrumentPosition {
        balance: 0,
        long,
        short,
    };
    let read = sample
        .desk
        .instrument_position(order.account, order.instrument);
    assert_eq!(read, Ok(expected), "{order:?}");
}

/// Sets the word, which is to say the order, and holds the verdict against what the order breaks.
fn compare(sample: &mut Sample, word: u64, order: Detail, accounts: u16, instruments: usize) {
    assert_eq!((Detail::of(word), order.word()), (order, word));
    sample.set(DETAIL, word);
    let broken = sample.judge(&mut Random::new(word));
    assert_eq!(broken, clauses(order, accounts, instruments), "{order:?}");
    if broken.is_empty() {
        compare_position(sample, order);
    }
    sample.restore();
}

/// In the low ten bits stand the first account's buys of 32 instruments, its sells, and so on.
#[test]
fn every_side_account_and_instrument() {
    for (accounts, instruments) in [(1, 1), (3, 31), (15, 6), (16, 32)] {
        let mut sample = with_one_order(accounts, instruments);
        let sides = (1..=16).flat_map(|account| [(account, Side::Buy), (account, Side::Sell)]);
        let said = sides.flat_map(|(account, side)| {
            (1..=32).map(move |instrument| Detail {
                side,
                account,
                instrument,
                filled: 2,
                remaining: 3,
            })
        });
        for (low, order) in (0..1_024).zip(said) {
            let word = low + (2 << 10) + (3 << 37);
            compare(&mut sample, word, order, accounts, instruments);
        }
    }
}

/// Both figures of 27 bits: small, near the largest total, and with each bit alone.
#[test]
fn filled_and_remaining_near_the_bounds() {
    let mut sample = with_one_order(16, 32);
    let near = [0, 1, 2, 499_999, 500_000, 999_999, 1_000_000, 1_000_001];
    let largest = (1 << 27) - 1;
    let figures = near.into_iter().chain((10..27).map(|bit| 1 << bit));
    let figures: Vec<u64> = figures.chain([largest]).collect();
    for &filled in &figures {
        for &remaining in &figures {
            let order = Detail {
                side: Side::Sell,
                account: 15,
                instrument: 32,
                filled,
                remaining,
            };
            let word = 14 * 64 + 32 + 31 + (filled << 10) + (remaining << 37);
            compare(&mut sample, word, order, 16, 32);
        }
    }
}
