//! The manual's example files: as printed they don't follow the layout; put right, and with roster
//! numbers for its names, they do.

use super::{accept, answered, desk, work};
use crate::trial::{default_line, group_line, own_line, Trial};

/// Section 7.8.1 of document 000.
const ONE_INSTRUMENT: &str = r#"<?xml version="1.0" encoding="iso-8859-1"?>
<FIXML>
  <SetLimRqt BrkFrmId="111111" NAccts="1">
    <AcctLmt Acct="222222" AcctType="CC" NEqvIxmLmtCfg="1">
      <EqvIxmLmt EqvIxm="IBOVESPA" NContrtLmtCfg="1">
        <ContrtLmt Contrt="EMBRAER" NIXmLmtCfg="1">
          <IxmLmt Sym="EMBR3" LongLmt="1000" ShortLmt="1000"
            MaxBidQty="5000" MaxOfrQty="10000"/>
        </ContrtLmt>
      </EqvIxmLmt>
    </AcctLmt>
  </SetLimRqt>
</FIXML>
"#;

/// Section 7.8.3 of document 001, which has the second participant whole; its EMBRAER lacks two
/// limits there.
const SEVERAL: &str = r#"<?xml version="1.0" encoding="iso-8859-1"?>
<FIXML>
  <SetLimRqt BrkFrmId="111111" NAccts="2">
    <AcctLmt Acct="222222" AcctType="CC" NEqvIxmLmtCfg="1">
      <EqvIxmLmt EqvIxm="IBOVESPA" LongLmt="1000" ShortLmt="1000" NContrtLmtCfg="1">
        <ContrtLmt Contrt="EMBRAER" LongLmt="1000" ShortLmt="1000"
          MaxBidQty="5000" MaxOfrQty="10000" NIxmLmtCfg="1">
          <IxmLmt Sym="EMBR3" LongLmt="1000" ShortLmt="1000"
            MaxBidQty="5000" MaxOfrQty="10000"/>
        </ContrtLmt>
      </EqvIxmLmt>
    </AcctLmt>
    <AcctLmt Acct="333333" AcctType="CM" NEqvIxmLmtCfg="2">
      <EqvIxmLmt EqvIxm="IBOVESPA" LongLmt="1000" ShortLmt="1000" NContrtLmtCfg="2">
        <ContrtLmt Contrt="PETROBRAS" LongLmt="1000" ShortLmt="1000"
          MaxBidQty="5000" MaxOfrQty="10000" NIxmLmtCfg="2">
          <IxmLmt Sym="PETR3" LongLmt="1000" ShortLmt="1000"
            MaxBidQty="5000" MaxOfrQty="10000"/>
          <IxmLmt Sym="PETR4" LongLmt="1000" ShortLmt="1000"
            MaxBidQty="5000" MaxOfrQty="10000"/>
        </ContrtLmt>
        <ContrtLmt Contrt="EMBRAER" LongLmt="10000" ShortLmt="10000" NIxmLmtCfg="1">
          <IxmLmt Sym="EMBR3" LongLmt="1000" ShortLmt="1000"
            MaxBidQty="5000" MaxOfrQty="10000"/>
        </ContrtLmt>
      </EqvIxmLmt>
    <EqvIxmLmt EqvIxm="BOLSA" LongLmt="1000" ShortLmt="1000" NContrtLmtCfg="1">
      <ContrtLmt Contrt="ABYARA" LongLmt="1000" ShortLmt="1000"
        MaxBidQty="5000" MaxOfrQty="10000" NIxmLmtCfg="1">
        <IxmLmt Sym="ABYA3" LongLmt="1000" ShortLmt="1000"
          MaxBidQty="5000" MaxOfrQty="10000"/>
      </ContrtLmt>
    </EqvIxmLmt>
  </AcctLmt>
</SetLimRqt>
</FIXML>
"#;

/// PETROBRAS is contract 1 with instruments 1 and 2, EMBRAER contract 2 with instrument 3, ABYARA
/// contract 3 with instrument 4; IBOVESPA is group 1, BOLSA group 2.
const NUMBERS: [(&str, &str); 12] = [
    ("222222", "1"),
    ("333333", "2"),
    ("IBOVESPA", "1"),
    ("BOLSA", "2"),
    ("PETROBRAS", "1"),
    ("EMBRAER", "2"),
    ("ABYARA", "3"),
    ("PETR3", "1"),
    ("PETR4", "2"),
    ("EMBR3", "3"),
    ("ABYA3", "4"),
    ("<IxmLmt ", r#"<IxmLmt Asset="" SecTyp="" "#),
];

/// An example with roster numbers, and with the texts that it leaves out.
fn numbered(example: &str) -> String {
    let replace = |file: String, (from, to): (&str, &str)| file.replace(from, to);
    NUMBERS.into_iter().fold(example.to_string(), replace)
}

/// Long and short 1,000, bid 5,000, offer 10,000.
const LINE: [i64; 4] = [5_000, 10_000, 1_000, 1_000];

#[test]
fn one_instrument_of_one_participant() {
    answered(25, ONE_INSTRUMENT);
    answered(25, numbered(ONE_INSTRUMENT));
    let mut trial = desk();
    accept(
        &mut trial,
        numbered(ONE_INSTRUMENT).replace("NIXmLmtCfg", "NIxmLmtCfg"),
    );
    let mut expected = desk();
    expected.accept(own_line(1, 3, LINE));
    assert!(trial.lent == expected.lent);
}

/// The lines that section 7.8.3 tells, with these figures for the second participant's EMBRAER.
fn several(embraer: Option<[i64; 4]>) -> Trial {
    let mut trial = desk();
    work(
        &mut trial,
        &[
            group_line(1, 1, 1_000, 1_000),
            default_line(1, 2, LINE),
            own_line(1, 3, LINE),
            group_line(2, 1, 1_000, 1_000),
            default_line(2, 1, LINE),
            own_line(2, 1, LINE),
            own_line(2, 2, LINE),
            own_line(2, 3, LINE),
            group_line(2, 2, 1_000, 1_000),
            default_line(2, 3, LINE),
            own_line(2, 4, LINE),
        ],
    );
    if let Some(figures) = embraer {
        trial.accept(default_line(2, 2, figures));
    }
    trial
}

#[test]
fn several_limits_of_several_participants() {
    answered(25, SEVERAL);
    answered(25, numbered(SEVERAL));
    let two = r#" LongLmt="10000" ShortLmt="10000""#;
    let four = format!(r#"{two} MaxBidQty="20000" MaxOfrQty="30000""#);
    let mut trial = desk();
    accept(&mut trial, numbered(SEVERAL).replace(two, &four));
    assert!(trial.lent == several(Some([20_000, 30_000, 10_000, 10_000])).lent);
    let mut trial = desk();
    accept(&mut trial, numbered(SEVERAL).replace(two, ""));
    assert!(trial.lent == several(None).lent);
}

/// As document 000 prints it, without BOLSA: the count of 2 is not that of the children.
#[test]
fn the_second_participants_second_group_left_out() {
    let file = numbered(SEVERAL).replace(r#" LongLmt="10000" ShortLmt="10000""#, "");
    let (before, bolsa) = file.split_at(file.find("    <EqvIxmLmt EqvIxm=\"2\"").unwrap());
    let after = &bolsa[bolsa.find("</AcctLmt>").unwrap()..];
    answered(26, format!("{before}{after}"));
}
