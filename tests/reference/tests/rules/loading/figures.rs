//! 7, 8 and 9: numbers off the roster and figures out of range.

use super::{accept, account, answered, contract, desk, desk_with_lines, edited, group};
use super::{instrument, request, FILE};

/// Off the roster of `desk`, whatever they name: some have the low bits of a number that is on it.
const UNKNOWN: [&str; 12] = [
    "0",
    "0000000000",
    "5",
    "255",
    "256",
    "257",
    "65535",
    "65536",
    "65537",
    "4294967296",
    "4294967297",
    "9999999999",
];

/// The figures of `FILE`.
const FIGURES: [&str; 10] = ["11", "12", "21", "22", "23", "24", "31", "32", "33", "34"];

#[test]
fn account_off_the_roster() {
    for number in UNKNOWN.into_iter().chain(["3"]) {
        let unknown = account(number, "0", "");
        answered(7, request("1", &unknown));
        let known = account("2", "0", "");
        answered(7, request("2", &(known.clone() + &unknown)));
        answered(7, request("2", &(unknown + &known)));
        let file = edited(FILE, r#"Acct="1""#, &format!(r#"Acct="{number}""#));
        answered(7, file);
    }
}

#[test]
fn group_off_the_roster() {
    for number in UNKNOWN.into_iter().chain(["3"]) {
        let groups = [
            group(number, "0", ""),
            group("2", "0", "") + &group(number, "0", ""),
        ];
        for (count, groups) in ["1", "2"].into_iter().zip(groups) {
            answered(8, request("1", &account("1", count, &groups)));
        }
    }
}

#[test]
fn contract_off_the_roster() {
    for number in UNKNOWN.into_iter().chain(["4"]) {
        for contracts in [
            ("1", contract(number, "0", "")),
            ("2", contract("2", "0", "") + &contract(number, "0", "")),
        ] {
            let group = group("1", contracts.0, &contracts.1);
            answered(8, request("1", &account("1", "1", &group)));
        }
    }
}

#[test]
fn instrument_off_the_roster() {
    for number in UNKNOWN {
        let contract = contract("1", "2", &(instrument("2") + &instrument(number)));
        answered(
            8,
            request("1", &account("1", "1", &group("1", "1", &contract))),
        );
        let file = edited(FILE, r#"Sym="1""#, &format!(r#"Sym="{number}""#));
        answered(8, file);
    }
}

#[test]
fn numbers_may_have_leading_zeros() {
    let mut trial = desk();
    for name in ["Acct", "EqvIxm", "Contrt", "Sym"] {
        for number in ["01", "001", "0000000001"] {
            let file = edited(
                FILE,
                &format!(r#" {name}="1""#),
                &format!(r#" {name}="{number}""#),
            );
            accept(&mut trial, file);
        }
    }
    assert!(trial.lent == desk_with_lines().lent);
}

#[test]
fn each_figure_up_to_1_000_000_000() {
    for figure in FIGURES {
        let quoted = format!("\"{figure}\"");
        for good in ["0", "00", "1", "999999999", "1000000000", "0000000000"] {
            answered(0, edited(FILE, &quoted, &format!("\"{good}\"")));
        }
        for past in [
            "1000000001",
            "2147483647",
            "4294967295",
            "4294967296",
            "4294967297",
            "5294967296",
            "9999999999",
        ] {
            answered(9, edited(FILE, &quoted, &format!("\"{past}\"")));
        }
    }
}
