//! Question 6: an event's length, kind, named values and unnamed fields.

use crate::trial::{default_line, group_line, own_line, Trial, ONE};
use wire::block_level::{ACCOUNT, GROUP, INSTRUMENT};
use wire::{balance, block, cancel, fill, new, replace, Fields, BUY, SELL};

/// The bytes of each field.
const SIDE: [usize; 1] = [1];
const ACCOUNT_BYTES: [usize; 2] = [2, 3];
const ITEM: [usize; 2] = [4, 5];
const LEVEL: [usize; 1] = [6];
const ID: [usize; 8] = [8, 9, 10, 11, 12, 13, 14, 15];

/// The bytes of the first figures.
fn figures(count: usize) -> Vec<usize> {
    (16..16 + 8 * count).collect()
}

/// A sound event of each shape, and the bytes of the fields that it names beside the kind.
fn shapes() -> Vec<(Fields, Vec<usize>)> {
    let account_item_level = [&ACCOUNT_BYTES[..], &ITEM, &LEVEL].concat();
    let order = [&SIDE[..], &ACCOUNT_BYTES, &ITEM, &ID, &figures(1)].concat();
    let four = [&account_item_level[..], &figures(4)].concat();
    let two = [&account_item_level[..], &figures(2)].concat();
    let one = [&account_item_level[..], &figures(1)].concat();
    let balances = [&ACCOUNT_BYTES[..], &ITEM, &figures(1)].concat();
    let id_figure = [&ID[..], &figures(1)].concat();
    vec![
        (own_line(1, 1, [5; 4]), four.clone()),
        (default_line(1, 1, [5; 4]), four),
        (group_line(1, 1, 5, 5), two),
        (balance(1, 1, 5), balances),
        (
            block(ACCOUNT, 1, 0, 1),
            [&ACCOUNT_BYTES[..], &LEVEL, &figures(1)].concat(),
        ),
        (
            block(INSTRUMENT, 0, 1, 1),
            [&ITEM[..], &LEVEL, &figures(1)].concat(),
        ),
        (block(GROUP, 1, 1, 1), one),
        (new(BUY, 1, 1, 7, 5), order.clone()),
        (new(SELL, 1, 1, 7, 5), order),
        (replace(7, 5), id_figure.clone()),
        (cancel(7), ID.to_vec()),
        (fill(7, 5), id_figure),
    ]
}

fn desk() -> Trial {
    Trial::wide(&[ONE])
}

#[test]
fn sound_shapes_pass() {
    for (event, _) in shapes() {
        assert_ne!(desk().lent.event(&event.bytes()), 6, "{event:?}");
    }
}

#[test]
fn every_byte_of_an_unnamed_field_is_zero() {
    for (event, named) in shapes() {
        for at in (1..48).filter(|at| !named.contains(at)) {
            for value in [1, 2, 0x80, 0xff] {
                let mut bytes = event.bytes();
                assert_eq!(bytes[at], 0, "{event:?} at {at}");
                bytes[at] = value;
                desk().refuse_bytes(6, &bytes);
            }
        }
    }
}

#[test]
fn named_account_item_id_and_figures_may_be_anything_but_id_0() {
    for (event, named) in shapes() {
        for at in named.into_iter().filter(|at| !matches!(at, 1 | 6)) {
            for value in [1, 0x7f, 0xff] {
                let mut bytes = event.bytes();
                bytes[at] = value;
                assert_ne!(desk().lent.event(&bytes), 6, "{event:?} at {at}");
            }
        }
    }
}

#[test]
fn length_is_48() {
    for (event, _) in shapes() {
        let bytes = [&event.bytes()[..], &[0; 48]].concat();
        for length in (0..=96).filter(|&length| length != 48) {
            desk().refuse_bytes(6, &bytes[..length]);
        }
    }
}

#[test]
fn kind_is_1_to_7() {
    let mut trial = desk();
    for (event, _) in shapes() {
        for kind in (0..=u8::MAX).filter(|kind| !(1..=7).contains(kind)) {
            trial.refuse(6, Fields { kind, ..event });
        }
    }
}

/// With every field zero but the kind, only BALANCE passes: its level, side and id are unnamed.
#[test]
fn kind_alone_is_6_but_for_a_balance() {
    let mut trial = desk();
    for kind in 0..=u8::MAX {
        let event = Fields {
            kind,
            ..Fields::default()
        };
        trial.refuse(if kind == 2 { 7 } else { 6 }, event);
    }
}

#[test]
fn side_of_a_new_is_1_or_2() {
    let mut trial = desk();
    for side in (0..=u8::MAX).filter(|side| !(1..=2).contains(side)) {
        trial.refuse(6, new(side, 1, 1, 7, 5));
    }
}

#[test]
fn level_of_a_limit_or_a_block_is_1_to_3() {
    let mut trial = desk();
    for level in (0..=u8::MAX).filter(|level| !(1..=3).contains(level)) {
        for event in [
            own_line(1, 1, [5; 4]),
            group_line(1, 1, 5, 5),
            block(ACCOUNT, 1, 0, 1),
            block(INSTRUMENT, 0, 1, 1),
            block(GROUP, 1, 1, 1),
        ] {
            trial.refuse(6, Fields { level, ..event });
        }
    }
}

#[test]
fn named_id_is_not_0() {
    let mut trial = desk();
    trial.refuse(6, new(BUY, 1, 1, 0, 5));
    trial.refuse(6, replace(0, 5));
    trial.refuse(6, cancel(0));
    trial.refuse(6, fill(0, 5));
}

#[test]
fn unset_group_line_leaves_the_last_two_figures_0() {
    let mut trial = desk();
    trial.refuse(6, wire::limit(3, 1, 1, [-1; 4]));
    trial.accept(group_line(1, 1, -1, -1));
}

#[test]
fn item_of_a_limit_goes_by_its_level() {
    let roster = wire::RosterSpec {
        accounts: 1,
        groups: 1,
        groups_of: vec![1, 1],
        instruments: vec![(1, ONE), (2, ONE), (2, ONE)],
    };
    let mut trial = Trial::open(&roster);
    trial.accept(own_line(1, 3, [1; 4]));
    trial.refuse(8, own_line(1, 4, [1; 4]));
    trial.accept(default_line(1, 2, [1; 4]));
    trial.refuse(8, default_line(1, 3, [1; 4]));
    trial.accept(group_line(1, 1, 1, 1));
    trial.refuse(8, group_line(1, 2, 1, 1));
    trial.accept(block(INSTRUMENT, 0, 3, 1));
    trial.refuse(8, block(INSTRUMENT, 0, 4, 1));
    trial.accept(block(GROUP, 1, 1, 1));
    trial.refuse(8, block(GROUP, 1, 2, 1));
}
