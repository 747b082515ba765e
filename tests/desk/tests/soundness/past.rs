//! Sizes and counts just past their limits, on memories where all else is in order.

use std::collections::BTreeSet;

use days::random::Random;
use desk::layout::{Clause, Detail, Field, PARTS};
use desk::ProvedDesk;
use reference::Side;
use wire::RosterSpec;

use crate::sample::Sample;

/// A desk of one account, group, contract and instrument, of weight 1.
fn smallest() -> Sample {
    opened(&RosterSpec {
        accounts: 1,
        groups: 1,
        groups_of: vec![1],
        instruments: vec![(1, 1)],
    })
}

/// A desk of so many accounts and the most of all else, every contract in group 1, every
/// instrument of contract 1 and weight 1. The words in the place of one more account, group,
/// contract or instrument are in order.
fn largest(accounts: u16) -> Sample {
    opened(&RosterSpec {
        accounts,
        groups: 4,
        groups_of: vec![1; 8],
        instruments: vec![(1, 1); 32],
    })
}

/// A fresh desk of this roster.
pub fn opened(roster: &RosterSpec) -> Sample {
    let mut desk = ProvedDesk::default();
    assert_eq!(desk.open(&roster.bytes()), 0);
    Sample::of("a fresh desk", desk, vec![wire::cancel(1).bytes().to_vec()])
}

/// Sets the fields and holds what is broken against what is expected.
fn broken(mut sample: Sample, fields: &[(Field, u64)]) -> BTreeSet<Clause> {
    for &(field, value) in fields {
        sample.set(field, value);
    }
    sample.judge(&mut Random::new(1))
}

#[test]
fn one_more_than_the_most_of_each_size() {
    for (accounts, field, most) in [
        (16, Field::Accounts, 16),
        (1, Field::Groups, 4),
        (1, Field::Contracts, 8),
        (1, Field::Instruments, 32),
    ] {
        let sound = broken(largest(accounts), &[(field, most)]);
        assert_eq!(sound, BTreeSet::new(), "{field:?}");
        let past = broken(largest(accounts), &[(field, most + 1)]);
        assert_eq!(past, BTreeSet::from([Clause::Sizes]), "{field:?}");
    }
}

/// A roster of no groups has no contracts either, and one of no contracts no instruments.
#[test]
fn none_of_each_size() {
    let sizes = [Field::Groups, Field::Contracts, Field::Instruments];
    let none = |from: usize| -> Vec<(Field, u64)> {
        sizes[from..].iter().map(|&size| (size, 0)).collect()
    };
    for fields in [none(0), none(1), none(2), vec![(Field::Accounts, 0)]] {
        let past = broken(smallest(), &fields);
        assert_eq!(past, BTreeSet::from([Clause::Sizes]), "{fields:?}");
    }
    assert_eq!(broken(smallest(), &[]), BTreeSet::new());
}

/// Records of 256 open orders, and behind them the words of a 257th.
#[test]
fn one_order_more_than_the_most() {
    for (count, clauses) in [
        (0, BTreeSet::new()),
        (255, BTreeSet::new()),
        (256, BTreeSet::new()),
        (257, BTreeSet::from([Clause::Count])),
    ] {
        let mut sample = smallest();
        sample.set(Field::Mark(1), 1);
        let detail = Detail {
            side: Side::Buy,
            account: 1,
            instrument: 1,
            filled: 0,
            remaining: 1,
        };
        for record in 0..257 {
            let words = [record as u64 + 1, detail.word()];
            for (part, value) in PARTS.into_iter().zip(words) {
                sample.set(Field::Order(record, part), value);
            }
        }
        let found = broken(sample, &[(Field::Count, count)]);
        assert_eq!(found, clauses, "{count} orders");
    }
}
