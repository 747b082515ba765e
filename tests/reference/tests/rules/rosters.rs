//! Questions 1 to 4: rosters at and past each of their bounds.

use crate::{Lent, MEMORY};
use reference::Roster;
use wire::RosterSpec;

fn open(roster: &[u8]) -> u8 {
    Lent::new(MEMORY).open(roster)
}

/// As many accounts, groups, contracts and instruments, all of them in group 1 and contract 1.
fn sized(accounts: u16, groups: u16, contracts: usize, instruments: usize) -> RosterSpec {
    RosterSpec {
        accounts,
        groups,
        groups_of: vec![1; contracts],
        instruments: vec![(1, 10_000); instruments],
    }
}

#[test]
fn sizes_at_their_bounds() {
    for (accounts, groups, contracts, instruments, number) in [
        (1, 1, 1, 1, 0),
        (16, 4, 8, 32, 0),
        (0, 1, 1, 1, 2),
        (17, 1, 1, 1, 2),
        (u16::MAX, 1, 1, 1, 2),
        (256 + 1, 1, 1, 1, 2),
        (1, 0, 1, 1, 2),
        (1, 5, 1, 1, 2),
        (1, 256 + 1, 1, 1, 2),
        (1, 1, 0, 1, 2),
        (1, 1, 9, 1, 2),
        (1, 1, 256 + 1, 1, 2),
        (1, 1, 1, 0, 2),
        (1, 1, 1, 33, 2),
        (1, 1, 1, 256 + 1, 2),
    ] {
        let roster = sized(accounts, groups, contracts, instruments);
        assert_eq!(
            open(&roster.bytes()),
            number,
            "{accounts} accounts, {groups} groups, {contracts} contracts, {instruments} instruments"
        );
    }
}

#[test]
fn every_allowed_size() {
    for accounts in 1..=16 {
        for groups in 1..=4 {
            for contracts in 1..=8 {
                for instruments in 1..=32 {
                    let roster = sized(accounts, groups, contracts, instruments);
                    assert_eq!(open(&roster.bytes()), 0);
                }
            }
        }
    }
}

#[test]
fn length_is_exact() {
    for (contracts, instruments) in [(1, 1), (2, 3), (8, 1), (1, 32), (8, 32)] {
        let bytes = sized(1, 1, contracts, instruments).bytes();
        let exact = 8 + contracts + 5 * instruments;
        assert_eq!(bytes.len(), exact);
        let longer = [&bytes[..], &[0; 64]].concat();
        for length in 0..=exact + 64 {
            let number = if length == exact { 0 } else { 2 };
            assert_eq!(open(&longer[..length]), number, "{length} of {exact} bytes");
        }
    }
}

#[test]
fn contract_names_a_group() {
    for groups in 1..=4 {
        for place in 0..8 {
            for group in 0..=u8::MAX {
                let mut roster = sized(1, groups, 8, 1);
                roster.groups_of[place] = group;
                let known = (1..=groups).contains(&u16::from(group));
                assert_eq!(open(&roster.bytes()), if known { 0 } else { 3 });
            }
        }
    }
}

#[test]
fn instrument_names_a_contract() {
    for contracts in 1..=8 {
        for place in [0, 1, 31] {
            for contract in 0..=u8::MAX {
                let mut roster = sized(1, 1, contracts, 32);
                roster.instruments[place].0 = contract;
                let known = (1..=contracts).contains(&usize::from(contract));
                assert_eq!(open(&roster.bytes()), if known { 0 } else { 3 });
            }
        }
    }
}

#[test]
fn weight_runs_to_1_000_000_either_way() {
    for place in [0, 1, 31] {
        for (weight, number) in [
            (0, 0),
            (1, 0),
            (-1, 0),
            (1_000_000, 0),
            (-1_000_000, 0),
            (1_000_001, 4),
            (-1_000_001, 4),
            (i32::MAX, 4),
            (i32::MIN, 4),
        ] {
            let mut roster = sized(1, 1, 1, 32);
            roster.instruments[place].1 = weight;
            assert_eq!(open(&roster.bytes()), number, "weight {weight}");
        }
    }
}

#[test]
fn first_no_gives_the_number() {
    let mut roster = sized(17, 1, 2, 2);
    roster.instruments = vec![(1, 1_000_001), (9, 0)];
    assert_eq!(Lent::new(MEMORY - 1).open(&roster.bytes()), 1);
    assert_eq!(open(&roster.bytes()), 2);
    roster.accounts = 16;
    assert_eq!(open(&roster.bytes()), 3);
    roster.instruments[1].0 = 2;
    assert_eq!(open(&roster.bytes()), 4);
    roster.instruments[0].1 = 1_000_000;
    assert_eq!(open(&roster.bytes()), 0);
}

#[test]
fn roster_is_read_as_it_was_written() {
    let spec = RosterSpec {
        accounts: 3,
        groups: 2,
        groups_of: vec![2, 1, 2],
        instruments: vec![(3, -1_000_000), (1, 256), (2, 0), (1, 65_536)],
    };
    let roster = Roster {
        accounts: 3,
        groups: 2,
        group_of_contract: vec![2, 1, 2],
        contract_of: vec![3, 1, 2, 1],
        weight: vec![-1_000_000, 256, 0, 65_536],
    };
    assert_eq!(Roster::read(&spec.bytes()), Some(roster.clone()));
    let mut lent = Lent::new(MEMORY);
    assert_eq!(lent.open(&spec.bytes()), 0);
    assert_eq!(lent.desk().unwrap().roster, roster);
    let groups: Vec<u16> = (1..=4)
        .map(|each| roster.group_of_instrument(each))
        .collect();
    assert_eq!(groups, [2, 2, 1, 2]);
}

#[test]
fn memory_is_long_enough_from_65_536_bytes() {
    let roster = sized(1, 1, 1, 1).bytes();
    assert_eq!(MEMORY, 65_536);
    for (length, number) in [(0, 1), (65_535, 1), (65_536, 0), (65_537, 0), (131_072, 0)] {
        assert_eq!(Lent::new(length).open(&roster), number);
    }
}
