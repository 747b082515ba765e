//! Each number, reached by a small event, roster or limits file; a refusal leaves everything as it
//! was.

use crate::trial::{group_line, one_group, own_line, Trial, ONE, WIDE};
use reference::{Lent, MEMORY};
use wire::block_level::{ACCOUNT, GROUP, INSTRUMENT};
use wire::{balance, block, cancel, fill, new, replace, Fields, RosterSpec, BUY, SELL};

/// The roster is refused with this number, and nothing changes: neither in a memory without a desk
/// nor in one with an open desk.
#[track_caller]
fn opening_refused(number: u8, length: usize, roster: &[u8]) {
    let mut lent = Lent::new(length);
    assert_eq!(lent.open(roster), number);
    assert!(lent == Lent::new(length));
    if length >= MEMORY {
        let mut trial = desk();
        let before = trial.lent.clone();
        assert_eq!(trial.lent.open(roster), number);
        assert!(trial.lent == before);
    }
}

/// Two instruments under wide lines, an open buy of 10 with id 1, and its account trading.
fn desk() -> Trial {
    let mut trial = Trial::wide(&[ONE, ONE]);
    trial.accept(balance(1, 1, -3));
    trial.accept(new(BUY, 1, 1, 1, 10));
    trial
}

/// A limits file of group 1 of account 1, with this NAccts and this long limit.
fn limits_file(count: &str, long: &str) -> Vec<u8> {
    let file = format!(
        r#"<FIXML><SetLimRqt BrkFrmId="" NAccts="{count}">
        <AcctLmt Acct="1" AcctType="" NEqvIxmLmtCfg="1">
        <EqvIxmLmt EqvIxm="1" LongLmt="{long}" ShortLmt="12" NContrtLmtCfg="0"/>
        </AcctLmt></SetLimRqt></FIXML>"#
    );
    file.into_bytes()
}

#[test]
fn by_1_memory_is_a_byte_short() {
    opening_refused(1, MEMORY - 1, &one_group(&[ONE]).bytes());
    opening_refused(1, 0, &[]);
}

#[test]
fn by_2_no_instruments() {
    opening_refused(2, MEMORY, &one_group(&[]).bytes());
}

#[test]
fn by_3_contract_of_an_unknown_group() {
    let mut roster = one_group(&[ONE]);
    roster.groups_of[0] = 2;
    opening_refused(3, MEMORY, &roster.bytes());
}

#[test]
fn by_4_weight_past_its_range() {
    opening_refused(4, MEMORY, &one_group(&[1_000_001]).bytes());
}

#[test]
fn by_5_memory_is_short_or_holds_no_desk() {
    for length in [0, 1, MEMORY - 1, MEMORY, MEMORY + 1] {
        let mut lent = Lent::new(length);
        assert_eq!(lent.event(&cancel(1).bytes()), 5);
        assert_eq!(lent.event(&[]), 5);
        assert_eq!(lent.load_limits(&limits_file("1", "11")), 5);
        assert_eq!(lent.load_limits(&[]), 5);
        assert!(lent == Lent::new(length));
    }
}

#[test]
fn by_5_memory_is_short_though_it_holds_a_desk() {
    let held = desk().lent.desk().unwrap().clone();
    let mut short = Lent::holding(MEMORY - 1, held.clone());
    let before = short.clone();
    assert_eq!(short.event(&cancel(1).bytes()), 5);
    assert_eq!(short.load_limits(&limits_file("1", "11")), 5);
    assert!(short == before);
    let mut long_enough = Lent::holding(MEMORY, held);
    assert_eq!(long_enough.event(&cancel(1).bytes()), 0);
    assert_eq!(long_enough.load_limits(&limits_file("1", "11")), 0);
}

#[test]
fn by_6_no_such_kind() {
    desk().refuse(6, Fields::default());
}

#[test]
fn by_7_unknown_account() {
    desk().refuse(7, new(BUY, 2, 1, 2, 1));
    desk().refuse(7, new(BUY, 0, 1, 2, 1));
}

#[test]
fn by_8_unknown_instrument() {
    desk().refuse(8, new(BUY, 1, 3, 2, 1));
    desk().refuse(8, new(BUY, 1, 0, 2, 1));
}

#[test]
fn by_9_invalid_quantity() {
    desk().refuse(9, new(BUY, 1, 1, 2, 0));
}

#[test]
fn by_10_balance_of_a_trading_account() {
    desk().refuse(10, balance(1, 2, 1));
}

#[test]
fn by_11_order_not_found() {
    desk().refuse(11, replace(2, 1));
    desk().refuse(11, cancel(2));
    desk().refuse(11, fill(2, 1));
}

#[test]
fn by_12_replace_to_what_is_filled() {
    let mut trial = desk();
    trial.accept(fill(1, 4));
    trial.refuse(12, replace(1, 4));
}

#[test]
fn by_12_fill_of_more_than_remains() {
    desk().refuse(12, fill(1, 11));
}

#[test]
fn by_13_duplicate_order() {
    desk().refuse(13, new(BUY, 1, 1, 1, 1));
}

#[test]
fn by_14_account_is_blocked() {
    let mut trial = desk();
    trial.accept(block(ACCOUNT, 1, 0, 1));
    trial.refuse(14, new(BUY, 1, 1, 2, 1));
}

#[test]
fn by_15_instrument_is_blocked() {
    let mut trial = desk();
    trial.accept(block(INSTRUMENT, 0, 1, 1));
    trial.refuse(15, new(BUY, 1, 1, 2, 1));
}

#[test]
fn by_16_group_is_blocked() {
    let mut trial = desk();
    trial.accept(block(GROUP, 1, 1, 1));
    trial.refuse(16, new(BUY, 1, 1, 2, 1));
}

#[test]
fn by_17_no_limits_configured() {
    let mut trial = desk();
    trial.accept(group_line(1, 1, -1, -1));
    trial.refuse(17, new(BUY, 1, 1, 2, 1));
}

#[test]
fn by_18_no_place_free() {
    let mut trial = desk();
    for id in 2..=256 {
        trial.accept(new(SELL, 1, 2, id, 1));
    }
    trial.refuse(18, new(BUY, 1, 1, 257, 1));
}

#[test]
fn by_19_buy_past_tci() {
    let mut trial = desk();
    trial.accept(own_line(1, 1, [5, WIDE, WIDE, WIDE]));
    trial.refuse(19, new(BUY, 1, 1, 2, 6));
    trial.accept(new(BUY, 1, 1, 2, 5));
}

#[test]
fn by_20_sell_past_tvi() {
    let mut trial = desk();
    trial.accept(own_line(1, 1, [WIDE, 5, WIDE, WIDE]));
    trial.refuse(20, new(SELL, 1, 1, 2, 6));
    trial.accept(new(SELL, 1, 1, 2, 5));
}

#[test]
fn by_21_pci_past_lci() {
    let mut trial = desk();
    trial.accept(own_line(1, 1, [WIDE, WIDE, 9, WIDE]));
    trial.refuse(21, new(BUY, 1, 1, 2, 3));
    trial.accept(new(BUY, 1, 1, 2, 2));
}

#[test]
fn by_22_pvi_past_lvi() {
    let mut trial = desk();
    trial.accept(own_line(1, 1, [WIDE, WIDE, WIDE, 9]));
    trial.refuse(22, new(SELL, 1, 1, 2, 7));
    trial.accept(new(SELL, 1, 1, 2, 6));
}

#[test]
fn by_23_pcc_past_lcc() {
    let mut trial = desk();
    trial.accept(group_line(1, 1, 9, WIDE));
    trial.refuse(23, new(BUY, 1, 2, 2, 3));
    trial.accept(new(BUY, 1, 2, 2, 2));
}

#[test]
fn by_24_pvc_past_lvc() {
    let mut trial = desk();
    trial.accept(group_line(1, 1, WIDE, 9));
    trial.refuse(24, new(SELL, 1, 2, 2, 7));
    trial.accept(new(SELL, 1, 2, 2, 6));
}

#[test]
fn by_25_no_limits_file() {
    let mut trial = desk();
    let before = trial.lent.clone();
    assert_eq!(trial.lent.load_limits(&limits_file("1", "x")), 25);
    assert_eq!(trial.lent.load_limits(&[]), 25);
    assert!(trial.lent == before);
}

#[test]
fn by_26_wrong_count() {
    let mut trial = desk();
    let before = trial.lent.clone();
    assert_eq!(trial.lent.load_limits(&limits_file("2", "11")), 26);
    assert!(trial.lent == before);
    assert_eq!(trial.lent.load_limits(&limits_file("1", "11")), 0);
    assert!(trial.lent != before);
}

#[test]
fn accepted_opening_leaves_nothing_of_an_earlier_desk() {
    let mut trial = desk();
    let roster = RosterSpec {
        accounts: 2,
        ..one_group(&[ONE])
    };
    assert_eq!(trial.lent.open(&roster.bytes()), 0);
    let mut fresh = Lent::new(MEMORY);
    assert_eq!(fresh.open(&roster.bytes()), 0);
    assert!(trial.lent == fresh);
    trial.refuse(11, cancel(1));
    trial.accept(balance(1, 1, 5));
    trial.refuse(17, new(BUY, 1, 1, 1, 1));
}
