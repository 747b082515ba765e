//! Where in their region the order records stand: an order that joins or leaves moves the records
//! on the shorter side of it, where the region has room, and no other record changes.

use std::collections::BTreeMap;

use days::random::Random;
use desk::layout::{Field, Part, Words};
use desk::ProvedDesk;
use wire::RosterSpec;

/// Which records an order moved.
#[derive(Clone, Copy, PartialEq, Eq, PartialOrd, Ord, Debug)]
enum Moved {
    /// Those before it.
    Before,
    /// Those behind it.
    Behind,
    /// All, to the start of the region.
    All,
}

/// An order joins or leaves.
#[derive(Clone, Copy, PartialEq, Eq, PartialOrd, Ord, Debug)]
enum Change {
    Joins,
    Leaves,
}

/// Which records move, and which is the first then, by the documented rule.
fn expected(change: Change, first: usize, place: usize, count: usize) -> (Moved, usize) {
    let in_the_first_half = 2 * place < count;
    match change {
        Change::Joins if in_the_first_half && first > 0 => (Moved::Before, first - 1),
        Change::Joins if first == 256 => (Moved::All, 0),
        Change::Leaves if in_the_first_half && first < 256 => (Moved::Before, first + 1),
        Change::Joins | Change::Leaves => (Moved::Behind, first),
    }
}

/// The record that is the first in use, and the ids in use.
fn records(words: Words) -> (usize, Vec<u64>) {
    let records = words.records().expect("a sound desk");
    let first = records.start;
    let id = |record| words.get(Field::Order(record, Part::Id));
    (first, records.map(id).collect())
}

/// A desk on which each order is accepted.
fn open() -> ProvedDesk {
    let mut desk = ProvedDesk::default();
    let roster = RosterSpec {
        accounts: 1,
        groups: 1,
        groups_of: vec![1],
        instruments: vec![(1, 10_000)],
    };
    assert_eq!(desk.open(&roster.bytes()), 0);
    for limit in [
        wire::limit(1, 1, 1, [1_000_000; 4]),
        wire::limit(3, 1, 1, [1_000_000, 1_000_000, 0, 0]),
    ] {
        assert_eq!(desk.event(&limit.bytes()), 0);
    }
    desk
}

/// Sends an event that the order with this id joins or leaves by, compares where the records stand
/// then, and tells which moved.
fn compare(desk: &mut ProvedDesk, change: Change, event: &[u8], id: u64) -> Moved {
    let (first, mut ids) = records(desk.words());
    let place = ids.partition_point(|&other| other < id);
    let (moved, first) = expected(change, first, place, ids.len());
    assert_eq!(desk.event(event), 0);
    match change {
        Change::Joins => ids.insert(place, id),
        Change::Leaves => assert_eq!(ids.remove(place), id),
    }
    assert_eq!(records(desk.words()), (first, ids), "{change:?}");
    moved
}

/// How often each way was taken while orders join and leave, `open_orders` of them open. An id is
/// chosen among those that `next` gives.
fn ways(open_orders: usize, mut next: impl FnMut() -> u64) -> BTreeMap<(Change, Moved), usize> {
    let (mut desk, mut random) = (open(), Random::new(51));
    let mut ways = BTreeMap::new();
    for _ in 0..20_000 {
        let (_, ids) = records(desk.words());
        let joins = ids.is_empty() || ids.len() < 256 && random.below(2 * open_orders) >= ids.len();
        let (change, id, event) = if joins {
            let id = next();
            (Change::Joins, id, wire::new(1, 1, 1, id, 1))
        } else {
            let id = random.one_of(&ids);
            let leaves = [wire::cancel(id), wire::fill(id, 1)];
            (Change::Leaves, id, random.one_of(&leaves))
        };
        let moved = compare(&mut desk, change, &event.bytes(), id);
        *ways.entry((change, moved)).or_default() += 1;
    }
    ways
}

#[test]
fn random_ids_move_the_records_on_the_shorter_side() {
    let mut random = Random::new(52);
    for open_orders in [1, 8, 200] {
        let ways = ways(open_orders, || random.number() | 1);
        let times = |way| ways.get(&way).copied().unwrap_or(0);
        for change in [Change::Joins, Change::Leaves] {
            for moved in [Moved::Before, Moved::Behind] {
                assert!(times((change, moved)) > 500, "{open_orders}: {ways:?}");
            }
        }
    }
}

#[test]
fn ascending_ids_go_back_to_the_start_of_the_region() {
    let mut last = 0;
    let ways = ways(200, || {
        last += 1;
        last
    });
    assert!(ways[&(Change::Joins, Moved::All)] > 10, "{ways:?}");
    assert!(ways[&(Change::Leaves, Moved::Before)] > 500, "{ways:?}");
    assert!(
        !ways.contains_key(&(Change::Joins, Moved::Before)),
        "{ways:?}"
    );
}
