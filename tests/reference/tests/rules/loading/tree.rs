//! 26: counts that differ from the children, contracts and instruments under another's group or
//! contract.

use super::{account, answered, contract, edited, group, instrument, request, FILE};

/// Account 1 has two groups; group 1 has two contracts, group 2 one; contract 1 has two instruments,
/// contract 2 one, contract 3 none. Account 2 has nothing.
fn wide_file() -> String {
    let one = contract("1", "2", &(instrument("1") + &instrument("2")));
    let two = contract("2", "1", &instrument("3"));
    let three = contract("3", "0", "");
    let groups = group("1", "2", &(one + &two)) + &group("2", "1", &three);
    request("2", &(account("1", "2", &groups) + &account("2", "0", "")))
}

/// A file of one contract in a group.
fn contract_under(group_number: &str, contract_number: &str) -> String {
    let contract = contract(contract_number, "0", "");
    request(
        "1",
        &account("1", "1", &group(group_number, "1", &contract)),
    )
}

/// A file of one instrument in a contract in a group.
fn instrument_under(group_number: &str, contract_number: &str, instrument_number: &str) -> String {
    let contract = contract(contract_number, "1", &instrument(instrument_number));
    request(
        "1",
        &account("1", "1", &group(group_number, "1", &contract)),
    )
}

#[test]
fn counts_are_those_of_the_children_alone() {
    answered(0, wide_file());
}

#[test]
fn each_count_off_by_one() {
    let file = wide_file();
    for (element, right) in [
        (r#"NAccts="#, 2),
        (r#"Acct="1" AcctType="" NEqvIxmLmtCfg="#, 2),
        (r#"Acct="2" AcctType="" NEqvIxmLmtCfg="#, 0),
        (r#"EqvIxm="1" NContrtLmtCfg="#, 2),
        (r#"EqvIxm="2" NContrtLmtCfg="#, 1),
        (r#"Contrt="1" NIxmLmtCfg="#, 2),
        (r#"Contrt="2" NIxmLmtCfg="#, 1),
        (r#"Contrt="3" NIxmLmtCfg="#, 0),
    ] {
        let count = |count: u64| {
            edited(
                &file,
                &format!("{element}\"{right}\""),
                &format!("{element}\"{count}\""),
            )
        };
        answered(0, count(right));
        answered(26, count(right + 1));
        if right > 0 {
            answered(26, count(right - 1));
        }
    }
}

#[test]
fn counts_are_compared_whole() {
    for name in ["NAccts", "NEqvIxmLmtCfg", "NContrtLmtCfg", "NIxmLmtCfg"] {
        let right = format!(r#"{name}="1""#);
        let count = |count: &str| edited(FILE, &right, &format!(r#"{name}="{count}""#));
        answered(0, count("0000000001"));
        for wrong in ["0", "2", "257", "65537", "4294967297", "9999999999"] {
            answered(26, count(wrong));
        }
    }
}

/// Files in which an element of each level but an instrument's has no children and this count.
fn childless(count: &str) -> [String; 5] {
    let contract = contract("1", count, "");
    [
        format!(r#"<FIXML><SetLimRqt BrkFrmId="" NAccts="{count}"/></FIXML>"#),
        request(count, ""),
        request("1", &account("1", count, "")),
        request("1", &account("1", "1", &group("1", count, ""))),
        request("1", &account("1", "1", &group("1", "1", &contract))),
    ]
}

#[test]
fn childless_elements_have_the_count_0() {
    for (count, answer) in [
        ("0", 0),
        ("00", 0),
        ("0000000000", 0),
        ("1", 26),
        ("10", 26),
        ("4294967296", 26),
        ("9999999999", 26),
    ] {
        for file in childless(count) {
            answered(answer, file);
        }
    }
}

#[test]
fn contract_under_its_own_group() {
    for (group, contract) in [("1", "1"), ("1", "2"), ("2", "3")] {
        answered(0, contract_under(group, contract));
    }
}

#[test]
fn contract_under_another_group() {
    for (group, contract) in [("2", "1"), ("2", "2"), ("1", "3")] {
        answered(26, contract_under(group, contract));
    }
}

#[test]
fn contract_under_a_group_off_the_roster() {
    for group in ["0", "3", "65537", "65538", "4294967297", "9999999999"] {
        for contract in ["1", "2", "3"] {
            answered(26, contract_under(group, contract));
        }
    }
}

#[test]
fn instrument_under_its_own_contract() {
    for (group, contract, instrument) in [
        ("1", "1", "1"),
        ("1", "1", "2"),
        ("1", "2", "3"),
        ("2", "3", "4"),
    ] {
        answered(0, instrument_under(group, contract, instrument));
    }
}

/// In its own group too.
#[test]
fn instrument_under_another_contract() {
    for (group, contract, instrument) in [
        ("1", "2", "1"),
        ("1", "2", "2"),
        ("1", "1", "3"),
        ("1", "1", "4"),
        ("2", "3", "1"),
    ] {
        answered(26, instrument_under(group, contract, instrument));
    }
}

#[test]
fn instrument_under_a_contract_off_the_roster() {
    for contract in ["0", "4", "65537", "65539", "4294967297", "9999999999"] {
        for (group, instrument) in [("1", "1"), ("1", "3"), ("2", "4"), ("9", "4")] {
            answered(26, instrument_under(group, contract, instrument));
        }
    }
}

/// Neither is a contract or instrument of the roster.
#[test]
fn contracts_and_instruments_off_the_roster_stand_under_any() {
    for unknown in ["0", "9", "65537", "4294967297"] {
        answered(8, contract_under("1", unknown));
        answered(8, contract_under("9", unknown));
        answered(8, instrument_under("1", "1", unknown));
        answered(8, instrument_under("1", unknown, unknown));
        answered(8, instrument_under("9", unknown, unknown));
    }
}

#[test]
fn parents_are_asked_in_every_account_with_limits_or_not() {
    let good = account(
        "1",
        "1",
        &group("1", "1", &contract("1", "1", &instrument("1"))),
    );
    for bad in [
        account("2", "1", &group("1", "1", &contract("3", "0", ""))),
        account(
            "2",
            "1",
            &group("1", "1", &contract("1", "1", &instrument("3"))),
        ),
        edited(
            &account(
                "2",
                "1",
                &group("1", "1", &contract("1", "1", &instrument("3"))),
            ),
            r#"Sym="3""#,
            r#"Sym="3" LongLmt="1" ShortLmt="1" MaxBidQty="1" MaxOfrQty="1""#,
        ),
    ] {
        answered(26, request("2", &(good.clone() + &bad)));
        answered(26, request("2", &(bad + &good)));
    }
}
