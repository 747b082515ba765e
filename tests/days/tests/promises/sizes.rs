//! Rosters of every size, the largest figures, and small days.

use std::collections::BTreeMap;

use days::gate;
use days::kinds::kind;
use days::plain::{Event, Roster};
use days::steps::Step;

use crate::{all, count};

fn rosters(name: &str) -> Vec<Roster> {
    let read = |day: days::Day| Roster::read(&day.roster).expect("an accepted roster can be read");
    kind(name).days().map(read).collect()
}

fn sizes(roster: &Roster) -> [u16; 4] {
    [
        roster.accounts,
        roster.groups,
        roster.contracts(),
        roster.instruments(),
    ]
}

/// How many accepted NEWs have this account and instrument.
fn accepted(days: &[Vec<Step>], wanted: (u16, u16)) -> usize {
    count(days, |step| match step.event() {
        Some(Event::New {
            account,
            instrument,
            ..
        }) => step.is_accepted() && (account, instrument) == wanted,
        _ => false,
    })
}

#[test]
fn the_largest_and_the_smallest_roster_are_used_to_their_ends() {
    let largest = [16, 4, 8, 32];
    for (name, most) in [("largest roster", largest), ("smallest roster", [1; 4])] {
        assert!(rosters(name).iter().all(|roster| sizes(roster) == most));
        let days = all(name);
        assert!(accepted(&days, (most[0], most[3])) >= 2, "{name}");
        for number in [7, 8] {
            assert!(
                count(&days, |step| step.answer == number) >= 8,
                "{name} {number}"
            );
        }
    }
}

#[test]
fn the_largest_figures_come_to_the_bounds() {
    let days = all("largest figures");
    let mut furthest = 0;
    for day in kind("largest figures").days() {
        let mut gate = gate::reference();
        assert_eq!(gate.open(&day.roster), 0);
        for event in &day.events {
            gate.event(event);
        }
        let group = gate.group_position(1, 1).expect("account 1 and group 1");
        furthest = furthest.max(group.long.abs()).max(group.short.abs());
    }
    assert!(furthest > 31_000_000_000_000_000, "{furthest}");
    assert!(count(&days, at_the_bound) >= 10);
}

/// Whether an accepted NEW brings S + B or −S + V to exactly 1,000,000,000.
fn at_the_bound(step: &Step) -> bool {
    let Some(Event::New {
        side,
        account,
        instrument,
        quantity,
        ..
    }) = step.event()
    else {
        return false;
    };
    let same = step.before.orders.iter().filter(|order| order.side == side);
    let same = same.filter(|order| (order.account, order.instrument) == (account, instrument));
    let open: i64 = same.map(|order| order.moved(order.remaining())).sum();
    let s = step.before.balance(account, instrument);
    let moved = if side == days::plain::Side::Buy {
        quantity
    } else {
        -quantity
    };
    step.is_accepted() && (s + open + moved).abs() == 1_000_000_000
}

#[test]
fn rosters_are_refused_by_2_3_and_4() {
    let mut answers = BTreeMap::new();
    for day in kind("rosters").days() {
        *answers
            .entry(gate::reference().open(&day.roster))
            .or_insert(0) += 1;
    }
    assert_eq!(answers.keys().copied().collect::<Vec<u8>>(), [0, 2, 3, 4]);
    assert!(answers.values().all(|&count| count >= 8), "{answers:?}");
}

#[test]
fn small_days_have_few_and_small_orders() {
    let days = all("small");
    for roster in rosters("small") {
        let most = [2, 2, 3, 4];
        assert!(sizes(&roster)
            .iter()
            .zip(most)
            .all(|(&size, most)| size <= most));
    }
    let large = |step: &Step| {
        step.before.orders.len() > 4 || step.before.orders.iter().any(|order| order.total > 4)
    };
    assert_eq!(count(&days, large), 0);
    assert!(count(&days, |step| step.before.orders.len() == 4) >= 100);
}
