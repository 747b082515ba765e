//! What a load sets, and what it leaves.

use super::{accept, account, contract, desk, desk_with_lines, edited, file_events, group};
use super::{instrument, refuse, request, work, FILE};
use crate::trial::{default_line, group_line, own_line, Trial};
use wire::{balance, block, block_level, cancel, fill, new, BUY, SELL};

/// A file of account 1 alone, which has these groups.
fn of_account_1(count: &str, groups: &str) -> String {
    request("1", &account("1", count, groups))
}

/// A file of contract 1 alone, which has these instruments.
fn of_contract_1(count: &str, instruments: &str) -> String {
    of_account_1("1", &group("1", "1", &contract("1", count, instruments)))
}

/// Instrument 1 with these four figures: long, short, bid, offer.
fn instrument_1(figures: [i64; 4]) -> String {
    let [long, short, bid, offer] = figures;
    format!(
        r#"<IxmLmt Asset="" SecTyp="" Sym="1" LongLmt="{long}" ShortLmt="{short}"
            MaxBidQty="{bid}" MaxOfrQty="{offer}"/>"#
    )
}

/// Contract 1 with these four figures, and no instruments.
fn contract_1(figures: [i64; 4]) -> String {
    let [long, short, bid, offer] = figures;
    format!(
        r#"<ContrtLmt Contrt="1" LongLmt="{long}" ShortLmt="{short}"
            MaxBidQty="{bid}" MaxOfrQty="{offer}" NIxmLmtCfg="0"/>"#
    )
}

/// Group 1 with these two figures, and no contracts.
fn group_1(long: i64, short: i64) -> String {
    format!(r#"<EqvIxmLmt EqvIxm="1" LongLmt="{long}" ShortLmt="{short}" NContrtLmtCfg="0"/>"#)
}

/// The file, loaded on this desk, leaves what the events leave on a fresh one.
#[track_caller]
fn leaves(mut trial: Trial, file: &str, events: &[wire::Fields]) {
    accept(&mut trial, file);
    let mut expected = desk();
    work(&mut expected, events);
    assert!(trial.lent == expected.lent, "{file}");
}

#[test]
fn long_short_bid_and_offer_are_lci_lvi_tci_and_tvi() {
    let mut trial = desk();
    accept(&mut trial, FILE);
    assert!(trial.lent == desk_with_lines().lent);
    // instrument 1 by its own line: TCI 33, TVI 34, LCI 31, LVI 32
    trial.refuse(19, new(BUY, 1, 1, 1, 34));
    trial.refuse(20, new(SELL, 1, 1, 1, 35));
    trial.refuse(21, new(BUY, 1, 1, 1, 32));
    trial.refuse(22, new(SELL, 1, 1, 1, 33));
    // instrument 2 by its contract's: TCI 23, TVI 24, LCI 21, LVI 22
    trial.refuse(19, new(BUY, 1, 2, 1, 24));
    trial.refuse(20, new(SELL, 1, 2, 1, 25));
    trial.refuse(21, new(BUY, 1, 2, 1, 22));
    trial.refuse(22, new(SELL, 1, 2, 1, 23));
    // group 1: LCC 11, LVC 12
    trial.refuse(23, new(BUY, 1, 2, 1, 12));
    trial.refuse(24, new(SELL, 1, 2, 1, 13));
    trial.accept(new(BUY, 1, 2, 1, 11));
    trial.accept(new(SELL, 1, 2, 2, 12));
}

/// Two accounts, each level with and without limits, no two figures alike.
const TWO_ACCOUNTS: &str = r#"<FIXML>
  <SetLimRqt BrkFrmId="8" NAccts="2">
    <AcctLmt Acct="2" AcctType="CC" NEqvIxmLmtCfg="2">
      <EqvIxmLmt EqvIxm="2" LongLmt="101" ShortLmt="102" NContrtLmtCfg="1">
        <ContrtLmt Contrt="3" NIxmLmtCfg="1">
          <IxmLmt Asset="" SecTyp="" Sym="4" LongLmt="103" ShortLmt="104" MaxBidQty="105" MaxOfrQty="106"/>
        </ContrtLmt>
      </EqvIxmLmt>
      <EqvIxmLmt EqvIxm="1" NContrtLmtCfg="2">
        <ContrtLmt Contrt="2" LongLmt="107" ShortLmt="108" MaxBidQty="109" MaxOfrQty="110" NIxmLmtCfg="1">
          <IxmLmt Asset="" SecTyp="" Sym="3"/>
        </ContrtLmt>
        <ContrtLmt Contrt="1" LongLmt="111" ShortLmt="112" MaxBidQty="113" MaxOfrQty="114" NIxmLmtCfg="2">
          <IxmLmt Asset="" SecTyp="" Sym="2" LongLmt="115" ShortLmt="116" MaxBidQty="117" MaxOfrQty="118"/>
          <IxmLmt Asset="" SecTyp="" Sym="1" LongLmt="119" ShortLmt="120" MaxBidQty="121" MaxOfrQty="122"/>
        </ContrtLmt>
      </EqvIxmLmt>
    </AcctLmt>
    <AcctLmt Acct="1" AcctType="CM" NEqvIxmLmtCfg="1">
      <EqvIxmLmt EqvIxm="2" LongLmt="123" ShortLmt="124" NContrtLmtCfg="1">
        <ContrtLmt Contrt="3" LongLmt="125" ShortLmt="126" MaxBidQty="127" MaxOfrQty="128" NIxmLmtCfg="0"/>
      </EqvIxmLmt>
    </AcctLmt>
  </SetLimRqt>
</FIXML>"#;

/// The LIMIT events of `TWO_ACCOUNTS`.
fn two_accounts() -> [wire::Fields; 8] {
    [
        group_line(2, 2, 101, 102),
        own_line(2, 4, [105, 106, 103, 104]),
        default_line(2, 2, [109, 110, 107, 108]),
        default_line(2, 1, [113, 114, 111, 112]),
        own_line(2, 2, [117, 118, 115, 116]),
        own_line(2, 1, [121, 122, 119, 120]),
        group_line(1, 2, 123, 124),
        default_line(1, 3, [127, 128, 125, 126]),
    ]
}

#[test]
fn each_element_with_limits_sets_its_line() {
    leaves(desk(), TWO_ACCOUNTS, &two_accounts());
}

#[test]
fn lines_not_named_stay() {
    let all = [&file_events()[..], &two_accounts()].concat();
    leaves(desk_with_lines(), TWO_ACCOUNTS, &all);
}

#[test]
fn an_element_without_limits_leaves_its_line() {
    let file = request(
        "1",
        &account(
            "1",
            "1",
            &group("1", "1", &contract("1", "1", &instrument("1"))),
        ),
    );
    let mut trial = desk_with_lines();
    accept(&mut trial, &file);
    assert!(trial.lent == desk_with_lines().lent);
    leaves(desk(), &file, &[]);
}

#[test]
fn a_line_set_before_takes_the_files_figures() {
    let file = of_contract_1("1", &instrument_1([3, 4, 1, 2]));
    let mut trial = desk_with_lines();
    accept(&mut trial, file);
    let mut expected = desk_with_lines();
    expected.accept(own_line(1, 1, [1, 2, 3, 4]));
    assert!(trial.lent == expected.lent);
}

#[test]
fn of_an_element_that_comes_again_the_later_wins() {
    let (one, other) = (instrument_1([3, 4, 1, 2]), instrument_1([7, 8, 5, 6]));
    let file = of_contract_1("3", &(one + &instrument("2") + &other));
    leaves(desk(), &file, &[own_line(1, 1, [5, 6, 7, 8])]);

    let (one, other) = (contract_1([3, 4, 1, 2]), contract_1([7, 8, 5, 6]));
    let file = of_account_1("1", &group("1", "2", &(one + &other)));
    leaves(desk(), &file, &[default_line(1, 1, [5, 6, 7, 8])]);

    let file = of_account_1("2", &(group_1(3, 4) + &group_1(1, 2)));
    leaves(desk(), &file, &[group_line(1, 1, 1, 2)]);

    let (one, other) = (
        account("1", "1", &group_1(3, 4)),
        account("1", "1", &group_1(1, 2)),
    );
    let file = request("3", &(one + &account("2", "0", "") + &other));
    leaves(desk(), &file, &[group_line(1, 1, 1, 2)]);
}

/// The second time without limits: it unsets nothing.
#[test]
fn an_element_that_comes_again_without_limits_leaves_the_earlier() {
    let file = of_contract_1("2", &(instrument_1([3, 4, 1, 2]) + &instrument("1")));
    leaves(desk(), &file, &[own_line(1, 1, [1, 2, 3, 4])]);
    let file = of_account_1(
        "1",
        &group(
            "1",
            "2",
            &(contract_1([3, 4, 1, 2]) + &contract("1", "0", "")),
        ),
    );
    leaves(desk(), &file, &[default_line(1, 1, [1, 2, 3, 4])]);
    let file = of_account_1("2", &(group_1(3, 4) + &group("1", "0", "")));
    leaves(desk(), &file, &[group_line(1, 1, 3, 4)]);
}

#[test]
fn limits_of_0_and_of_1_000_000_000_are_set() {
    const MOST: i64 = 1_000_000_000;
    let instruments = contract("1", "1", &instrument_1([MOST, 0, MOST, 0]));
    let contracts = contract_1([0, MOST, 0, MOST]) + &instruments;
    let groups = group_1(0, MOST) + &group("1", "2", &contracts);
    let events = [
        group_line(1, 1, 0, MOST),
        default_line(1, 1, [0, MOST, 0, MOST]),
        own_line(1, 1, [MOST, 0, MOST, 0]),
    ];
    leaves(desk(), &of_account_1("2", &groups), &events);
}

/// All of the file before the fault is right.
#[test]
fn a_refused_load_sets_none_of_its_lines() {
    for (number, from, to) in [
        (9, r#"MaxOfrQty="128""#, r#"MaxOfrQty="1000000001""#),
        (
            8,
            r#"Contrt="3" LongLmt="125""#,
            r#"Contrt="4" LongLmt="125""#,
        ),
        (7, r#"Acct="1""#, r#"Acct="3""#),
        (26, r#"NIxmLmtCfg="0""#, r#"NIxmLmtCfg="1""#),
        (25, "</FIXML>", "</FIXML"),
    ] {
        let file = edited(TWO_ACCOUNTS, from, to);
        refuse(&mut desk(), number, &file);
        refuse(&mut desk_with_lines(), number, &file);
    }
}

/// Orders, balances, marks and blocks stay, and each order is judged by the lines as they are then.
#[test]
fn loads_between_events() {
    let opened = [
        balance(1, 1, -2),
        balance(2, 4, 7),
        block(block_level::INSTRUMENT, 0, 2, 1),
    ];
    let traded = [new(BUY, 1, 1, 1, 13), fill(1, 3), new(SELL, 1, 1, 2, 4)];
    let mut trial = desk();
    work(&mut trial, &opened);
    trial.refuse(17, new(BUY, 1, 1, 1, 13));
    accept(&mut trial, FILE);
    work(&mut trial, &traded);
    trial.refuse(15, new(BUY, 1, 2, 3, 1));
    trial.refuse(10, balance(1, 1, 0));
    // S 1, 10 resting to buy, 4 to sell: PCI 11, PVI 3
    accept(
        &mut trial,
        of_contract_1("1", &instrument_1([10, 3, 20, 20])),
    );
    trial.refuse(21, new(BUY, 1, 1, 3, 1));
    trial.refuse(22, new(SELL, 1, 1, 3, 1));
    let mut expected = desk();
    work(&mut expected, &opened);
    work(&mut expected, &file_events());
    work(&mut expected, &traded);
    expected.accept(own_line(1, 1, [20, 20, 10, 3]));
    assert!(trial.lent == expected.lent);
    trial.accept(cancel(1));
    trial.accept(new(BUY, 1, 1, 3, 9));
}
