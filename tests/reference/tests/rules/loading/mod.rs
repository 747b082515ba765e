//! Limits files: document 02's request W1, tried with files written by hand.

mod attributes;
mod figures;
mod layout;
mod left_open;
mod lines;
mod manual;
mod order;
mod tree;

use crate::trial::{default_line, group_line, own_line, Trial, ONE};
use wire::{Fields, RosterSpec};

/// The manual's layout with roster numbers, one element of each, no two figures alike.
const FILE: &str = r#"<?xml version="1.0" encoding="iso-8859-1"?>
<FIXML>
  <SetLimRqt BrkFrmId="111111" NAccts="1">
    <AcctLmt Acct="1" AcctType="CM" NEqvIxmLmtCfg="1">
      <EqvIxmLmt EqvIxm="1" LongLmt="11" ShortLmt="12" NContrtLmtCfg="1">
        <ContrtLmt Contrt="1" LongLmt="21" ShortLmt="22" MaxBidQty="23" MaxOfrQty="24" NIxmLmtCfg="1">
          <IxmLmt Asset="AST" SecTyp="FUT" Sym="1" LongLmt="31" ShortLmt="32" MaxBidQty="33"
MaxOfrQty="34"/>
        </ContrtLmt>
      </EqvIxmLmt>
    </AcctLmt>
  </SetLimRqt>
</FIXML>
"#;

/// Two accounts. Group 1 has contracts 1 and 2, group 2 contract 3; contract 1 has instruments 1
/// and 2, contract 2 instrument 3, contract 3 instrument 4.
fn desk() -> Trial {
    Trial::open(&RosterSpec {
        accounts: 2,
        groups: 2,
        groups_of: vec![1, 1, 2],
        instruments: vec![(1, ONE), (1, ONE), (2, ONE), (3, -ONE)],
    })
}

/// The LIMIT events of `FILE`.
fn file_events() -> [Fields; 3] {
    [
        group_line(1, 1, 11, 12),
        default_line(1, 1, [23, 24, 21, 22]),
        own_line(1, 1, [33, 34, 31, 32]),
    ]
}

/// The desk with the lines of `FILE`, set by its events.
fn desk_with_lines() -> Trial {
    let mut trial = desk();
    work(&mut trial, &file_events());
    trial
}

/// The events are accepted, one after the other.
#[track_caller]
fn work(trial: &mut Trial, events: &[Fields]) {
    for event in events {
        trial.accept(*event);
    }
}

/// The file with one thing, which stands there once, written otherwise.
#[track_caller]
fn edited(file: &str, from: &str, to: &str) -> String {
    assert_eq!(file.matches(from).count(), 1, "{from} stands there once");
    file.replace(from, to)
}

/// A file of no blanks and no declaration: the request with this NAccts and these accounts.
fn request(count: &str, accounts: &str) -> String {
    format!(r#"<FIXML><SetLimRqt BrkFrmId="" NAccts="{count}">{accounts}</SetLimRqt></FIXML>"#)
}

/// An account with this NEqvIxmLmtCfg and these groups.
fn account(number: &str, count: &str, groups: &str) -> String {
    let start = format!(r#"<AcctLmt Acct="{number}" AcctType="" NEqvIxmLmtCfg="{count}">"#);
    format!("{start}{groups}</AcctLmt>")
}

/// A group without limits, with this NContrtLmtCfg and these contracts.
fn group(number: &str, count: &str, contracts: &str) -> String {
    let start = format!(r#"<EqvIxmLmt EqvIxm="{number}" NContrtLmtCfg="{count}">"#);
    format!("{start}{contracts}</EqvIxmLmt>")
}

/// A contract without limits, with this NIxmLmtCfg and these instruments.
fn contract(number: &str, count: &str, instruments: &str) -> String {
    let start = format!(r#"<ContrtLmt Contrt="{number}" NIxmLmtCfg="{count}">"#);
    format!("{start}{instruments}</ContrtLmt>")
}

/// An instrument without limits.
fn instrument(number: &str) -> String {
    format!(r#"<IxmLmt Asset="" SecTyp="" Sym="{number}"/>"#)
}

/// The file is accepted.
#[track_caller]
fn accept(trial: &mut Trial, file: impl AsRef<[u8]>) {
    let file = file.as_ref();
    let answer = trial.lent.load_limits(file);
    assert_eq!(answer, 0, "{}", file.escape_ascii());
}

/// The file is refused with this number, and nothing changes.
#[track_caller]
fn refuse(trial: &mut Trial, number: u8, file: impl AsRef<[u8]>) {
    let file = file.as_ref();
    let before = trial.lent.clone();
    let answer = trial.lent.load_limits(file);
    let shown = file.escape_ascii();
    assert_eq!(answer, number, "{shown}");
    assert!(trial.lent == before, "a refusal changed the desk: {shown}");
}

/// On a fresh desk the file is answered so; a refusal changes nothing.
#[track_caller]
fn answered(number: u8, file: impl AsRef<[u8]>) {
    match number {
        0 => accept(&mut desk(), file),
        _ => refuse(&mut desk(), number, file),
    }
}
