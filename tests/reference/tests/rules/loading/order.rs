//! The first failed question gives the number: files that fail many are put right step by step.

use super::{account, answered, contract, edited, group, instrument, request, FILE};
use crate::{Lent, MEMORY};

/// The file is refused with each number in turn, each time then edited, and at last accepted.
#[track_caller]
fn put_right(mut file: String, steps: &[(u8, &str, &str)]) {
    for (number, from, to) in steps {
        answered(*number, &file);
        file = edited(&file, from, to);
    }
    answered(0, &file);
}

/// Elements with a fault at each level, all of them with limits.
const FAULTS: &str = r#"<FIXML><SetLimRqt BrkFrmId="" NAccts="9">
<AcctLmt Acct="90" AcctType="" NEqvIxmLmtCfg="1">
<EqvIxmLmt EqvIxm="91" LongLmt="1000000001" ShortLmt="0" NContrtLmtCfg="1">
<ContrtLmt Contrt="92" LongLmt="1" ShortLmt="1000000002" MaxBidQty="1" MaxOfrQty="1" NIxmLmtCfg="1">
<IxmLmt Asset="" SecTyp="" Sym="93" LongLmt="1" ShortLmt="1" MaxBidQty="1" MaxOfrQty="1000000003"/>
</ContrtLmt></EqvIxmLmt></AcctLmt>
<AcctLmt Acct="94" AcctType="" NEqvIxmLmtCfg="0"/>
</SetLimRqt></FIXML >"#;

#[test]
fn every_question_in_order() {
    for length in [0, MEMORY - 1, MEMORY] {
        assert_eq!(Lent::new(length).load_limits(FAULTS.as_bytes()), 5);
        assert_eq!(Lent::new(length).load_limits(FILE.as_bytes()), 5);
    }
    put_right(
        FAULTS.to_string(),
        &[
            (25, "</FIXML >", "</FIXML>"),
            (26, r#"NAccts="9""#, r#"NAccts="2""#),
            (7, r#"Acct="90""#, r#"Acct="1""#),
            (8, r#"EqvIxm="91""#, r#"EqvIxm="1""#),
            (9, "1000000001", "1000000000"),
            (8, r#"Contrt="92""#, r#"Contrt="1""#),
            (9, "1000000002", "1000000000"),
            (8, r#"Sym="93""#, r#"Sym="1""#),
            (9, "1000000003", "1000000000"),
            (7, r#"Acct="94""#, r#"Acct="2""#),
        ],
    );
}

#[test]
fn a_groups_9_before_its_contracts_8_and_a_later_accounts_7() {
    let limits = r#"EqvIxm="1" LongLmt="1" ShortLmt="9999999999""#;
    let group = edited(
        &group("1", "1", &contract("4", "0", "")),
        r#"EqvIxm="1""#,
        limits,
    );
    let accounts = account("1", "1", &group) + &account("3", "0", "");
    put_right(
        request("2", &accounts),
        &[
            (9, "9999999999", "1"),
            (8, r#"Contrt="4""#, r#"Contrt="2""#),
            (7, r#"Acct="3""#, r#"Acct="2""#),
        ],
    );
}

/// Elements without limits are asked as well.
#[test]
fn an_accounts_7_before_its_groups_8_before_its_contracts_8() {
    let contract = contract("4", "1", &instrument("5"));
    let accounts = account("3", "1", &group("3", "1", &contract));
    put_right(
        request("1", &accounts),
        &[
            (7, r#"Acct="3""#, r#"Acct="1""#),
            (8, r#"EqvIxm="3""#, r#"EqvIxm="1""#),
            (8, r#"Contrt="4""#, r#"Contrt="1""#),
            (8, r#"Sym="5""#, r#"Sym="1""#),
        ],
    );
}

/// The first account's instrument before the second account, its group before the next group.
#[test]
fn elements_in_the_order_in_which_they_begin() {
    let deep = group("1", "1", &contract("1", "1", &instrument("5")));
    let past = r#"<EqvIxmLmt EqvIxm="2" LongLmt="1000000001" ShortLmt="1" NContrtLmtCfg="0"/>"#;
    let accounts = account("1", "2", &(deep.clone() + past)) + &account("3", "1", &deep);
    put_right(
        request("2", &accounts).replacen("Sym=\"5\"", "Sym=\"6\"", 1),
        &[
            (8, r#"Sym="6""#, r#"Sym="1""#),
            (9, "1000000001", "1"),
            (7, r#"Acct="3""#, r#"Acct="2""#),
            (8, r#"Sym="5""#, r#"Sym="2""#),
        ],
    );
}

/// 26 of the whole file, its last element too, before 7 of its first.
#[test]
fn a_wrong_count_or_parent_before_any_7_8_or_9() {
    let past = edited(FILE, "\"11\"", "\"1000000001\"");
    for (from, to) in [
        (r#"Acct="1""#, r#"Acct="3""#),
        (r#"Sym="1""#, r#"Sym="5""#),
        ("\"34\"", "\"1000000001\""),
    ] {
        let file = edited(&past, from, to);
        for (count, wrong) in [
            (r#"NAccts="1""#, r#"NAccts="2""#),
            (r#"NEqvIxmLmtCfg="1""#, r#"NEqvIxmLmtCfg="0""#),
            (r#"NContrtLmtCfg="1""#, r#"NContrtLmtCfg="0""#),
            (r#"NIxmLmtCfg="1""#, r#"NIxmLmtCfg="2""#),
            (r#"Contrt="1""#, r#"Contrt="3""#),
        ] {
            answered(26, edited(&file, count, wrong));
        }
    }
    let unknown = account("3", "0", "");
    let strays = account(
        "1",
        "1",
        &group("1", "1", &contract("1", "1", &instrument("4"))),
    );
    answered(26, request("2", &(unknown + &strays)));
}

/// A roster contract under a group off the roster is 26, though that group is 8's as well.
#[test]
fn a_parent_off_the_roster_before_its_own_8() {
    let accounts = account(
        "1",
        "1",
        &group("3", "1", &contract("4", "1", &instrument("1"))),
    );
    put_right(
        request("1", &accounts),
        &[
            (26, r#"Sym="1""#, r#"Sym="5""#),
            (8, r#"EqvIxm="3""#, r#"EqvIxm="1""#),
            (8, r#"Contrt="4""#, r#"Contrt="1""#),
            (8, r#"Sym="5""#, r#"Sym="1""#),
        ],
    );
}

/// 25 of the whole file, its last byte too, before 26 of its first count.
#[test]
fn a_broken_layout_before_any_26() {
    let file = edited(FILE, r#"NAccts="1""#, r#"NAccts="2""#);
    answered(26, &file);
    answered(25, format!("{file}x"));
    answered(25, edited(&file, "</FIXML>", ""));
    answered(25, edited(&file, r#"Sym="1""#, r#"Sym="-1""#));
    answered(25, edited(&file, r#" MaxBidQty="33""#, ""));
}
