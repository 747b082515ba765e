//! The bytes that limits files give, written out by hand from document 000, section 7.7.2.

use wire::fixml::{account, contract, file, group, instrument, Element, Hand, DECLARATION};

/// Each level with limits and without.
fn two_accounts() -> Element {
    let instruments = vec![instrument(4, Some([33, 34, 31, 32])), instrument(5, None)];
    let contracts = vec![
        contract(2, Some([23, 24, 21, 22]), instruments),
        contract(3, None, Vec::new()),
    ];
    let groups = vec![
        group(1, Some([11, 12]), contracts),
        group(6, None, Vec::new()),
    ];
    file(vec![account(7, groups), account(65_537, Vec::new())])
}

#[test]
fn elements_and_attributes_in_the_manuals_order() {
    let expected = concat!(
        r#"<FIXML>"#,
        r#"<SetLimRqt BrkFrmId="" NAccts="2">"#,
        r#"<AcctLmt Acct="7" AcctType="" NEqvIxmLmtCfg="2">"#,
        r#"<EqvIxmLmt EqvIxm="1" LongLmt="11" ShortLmt="12" NContrtLmtCfg="2">"#,
        r#"<ContrtLmt Contrt="2" LongLmt="21" ShortLmt="22" MaxBidQty="23" MaxOfrQty="24" NIxmLmtCfg="2">"#,
        r#"<IxmLmt Asset="" SecTyp="" Sym="4" LongLmt="31" ShortLmt="32" MaxBidQty="33" MaxOfrQty="34"/>"#,
        r#"<IxmLmt Asset="" SecTyp="" Sym="5"/>"#,
        r#"</ContrtLmt>"#,
        r#"<ContrtLmt Contrt="3" NIxmLmtCfg="0"/>"#,
        r#"</EqvIxmLmt>"#,
        r#"<EqvIxmLmt EqvIxm="6" NContrtLmtCfg="0"/>"#,
        r#"</AcctLmt>"#,
        r#"<AcctLmt Acct="65537" AcctType="" NEqvIxmLmtCfg="0"/>"#,
        r#"</SetLimRqt>"#,
        r#"</FIXML>"#,
    );
    assert_eq!(String::from_utf8(two_accounts().bytes()).unwrap(), expected);
}

/// Writes a mark for each place, and no `/>`.
struct Marks;

impl Hand for Marks {
    fn around_tag(&mut self) -> Vec<u8> {
        b"_".to_vec()
    }

    fn before_attribute(&mut self) -> Vec<u8> {
        b"-".to_vec()
    }

    fn closes_at_once(&mut self) -> bool {
        false
    }
}

#[test]
fn blanks_and_end_tags_are_the_hands() {
    let expected = concat!(
        r#"_<FIXML>"#,
        r#"_<SetLimRqt-BrkFrmId=""-NAccts="1">"#,
        r#"_<AcctLmt-Acct="1"-AcctType=""-NEqvIxmLmtCfg="0">_</AcctLmt>"#,
        r#"_</SetLimRqt>"#,
        r#"_</FIXML>_"#,
    );
    let written = file(vec![account(1, Vec::new())]).written_by(&mut Marks);
    assert_eq!(String::from_utf8(written).unwrap(), expected);
}

#[test]
fn declaration_is_the_manuals() {
    let declaration = String::from_utf8(DECLARATION.to_vec()).unwrap();
    assert_eq!(
        declaration,
        "<?xml version=\"1.0\" encoding=\"iso-8859-1\"?>"
    );
}
