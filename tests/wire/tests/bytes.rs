//! The bytes that rosters and events give, written out by hand from document 01.

use wire::{balance, block, block_level, cancel, fill, kind, limit, limit_level, new, replace};
use wire::{Fields, RosterSpec, BUY, SELL};

#[test]
fn roster() {
    let roster = RosterSpec {
        accounts: 3,
        groups: 258,
        groups_of: vec![7, 8, 9],
        instruments: vec![(4, 10_000), (5, -2)],
    };
    #[rustfmt::skip]
    let bytes = [
        3, 0, 2, 1, 3, 0, 2, 0,
        7, 8, 9,
        4, 5,
        0x10, 0x27, 0, 0, 0xfe, 0xff, 0xff, 0xff,
    ];
    assert_eq!(roster.bytes(), bytes);
}

#[test]
fn event() {
    let event = Fields {
        kind: 1,
        side: 2,
        account: 0x0403,
        item: 0x0605,
        level: 7,
        zero: 8,
        id: 0x100f_0e0d_0c0b_0a09,
        figures: [-1, 256, -2, i64::MIN],
    };
    #[rustfmt::skip]
    let bytes = [
        1, 2, 3, 4, 5, 6, 7, 8,
        9, 10, 11, 12, 13, 14, 15, 16,
        0xff, 0xff, 0xff, 0xff, 0xff, 0xff, 0xff, 0xff,
        0, 1, 0, 0, 0, 0, 0, 0,
        0xfe, 0xff, 0xff, 0xff, 0xff, 0xff, 0xff, 0xff,
        0, 0, 0, 0, 0, 0, 0, 0x80,
    ];
    assert_eq!(event.bytes(), bytes);
}

/// The fields kind, side, account, item, level, id and figures; the byte `zero` is 0.
type Plain = (u8, u8, u16, u16, u8, u64, [i64; 4]);

fn plain(event: Fields) -> Plain {
    assert_eq!(event.zero, 0);
    let Fields { kind, side, .. } = event;
    let Fields { account, item, .. } = event;
    let Fields {
        level, id, figures, ..
    } = event;
    (kind, side, account, item, level, id, figures)
}

#[test]
fn each_kind_names_its_fields() {
    let figures = [5, 6, 7, 8];
    let one = [9, 0, 0, 0];
    assert_eq!(plain(limit(2, 3, 4, figures)), (1, 0, 3, 4, 2, 0, figures));
    assert_eq!(plain(balance(3, 4, 9)), (2, 0, 3, 4, 0, 0, one));
    assert_eq!(plain(block(3, 4, 5, 9)), (3, 0, 4, 5, 3, 0, one));
    assert_eq!(plain(new(BUY, 3, 4, 8, 9)), (4, 1, 3, 4, 0, 8, one));
    assert_eq!(plain(new(SELL, 3, 4, 8, 9)), (4, 2, 3, 4, 0, 8, one));
    assert_eq!(plain(replace(8, 9)), (5, 0, 0, 0, 0, 8, one));
    assert_eq!(plain(cancel(8)), (6, 0, 0, 0, 0, 8, [0; 4]));
    assert_eq!(plain(fill(8, 9)), (7, 0, 0, 0, 0, 8, one));
}

#[test]
fn kinds_and_levels_have_their_numbers() {
    use kind::{BALANCE, BLOCK, CANCEL, FILL, LIMIT, NEW, REPLACE};
    let kinds = [LIMIT, BALANCE, BLOCK, NEW, REPLACE, CANCEL, FILL];
    assert_eq!(kinds, [1, 2, 3, 4, 5, 6, 7]);
    use limit_level::{CONTRACT, GROUP, INSTRUMENT};
    assert_eq!([INSTRUMENT, CONTRACT, GROUP], [1, 2, 3]);
    let blocks = [
        block_level::ACCOUNT,
        block_level::INSTRUMENT,
        block_level::GROUP,
    ];
    assert_eq!(blocks, [1, 2, 3]);
}
