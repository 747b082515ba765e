//! Files of a hundred thousand elements.

use wire::fixml::{account, contract, file, group, instrument, Element};
use wire::RosterSpec;

use crate::pair::Pair;

const ELEMENTS: u64 = 100_000;

/// Two accounts and groups, one contract in each group, two instruments of each contract.
fn opened() -> Pair {
    let roster = RosterSpec {
        accounts: 2,
        groups: 2,
        groups_of: vec![1, 2],
        instruments: vec![(1, 10_000), (2, 10_000), (1, 0), (2, -1)],
    };
    Pair::open(&roster.bytes())
}

/// An instrument of contract 1 with figures that differ from place to place.
fn of_contract_1(place: u64) -> Element {
    let figures = [place, place + 1, place + 2, place + 3];
    instrument(1 + 2 * (place % 2), (place % 5 > 0).then_some(figures))
}

/// Ten accounts of ten groups each, each of ten contracts of a hundred instruments each.
fn tree() -> Element {
    let contract_at = |at: u64| {
        let instruments = (0..100).map(|place| of_contract_1(100 * at + place));
        contract(1, Some([at; 4]), instruments.collect())
    };
    let group_at = |at: u64| {
        let contracts = (0..10).map(|place| contract_at(10 * at + place));
        group(1, Some([at, at + 1]), contracts.collect())
    };
    let account_at = |at: u64| {
        let groups = (0..10).map(|place| group_at(10 * at + place));
        account(1 + at % 2, groups.collect())
    };
    file((0..10).map(account_at).collect())
}

/// As many elements at one level, all in one parent.
fn flat() -> [Element; 4] {
    let all = || 0..ELEMENTS;
    let of_group = |contracts| file(vec![account(1, vec![group(1, None, contracts)])]);
    [
        file(all().map(|at| account(1 + at % 2, Vec::new())).collect()),
        file(vec![account(
            2,
            all()
                .map(|at| group(1 + at % 2, Some([at, at]), Vec::new()))
                .collect(),
        )]),
        of_group(
            all()
                .map(|at| contract(1, Some([at; 4]), Vec::new()))
                .collect(),
        ),
        of_group(vec![contract(1, None, all().map(of_contract_1).collect())]),
    ]
}

#[test]
fn accepted() {
    let mut pair = opened();
    assert_eq!(pair.load(&tree().bytes()), 0);
    for file in flat() {
        assert_eq!(pair.load(&file.bytes()), 0);
    }
}

/// The last of an element's children, of its last child's, and so on, so many levels down.
fn last(element: &mut Element, levels: usize) -> &mut Element {
    match levels {
        0 => element,
        _ => last(element.children.last_mut().expect("a child"), levels - 1),
    }
}

/// All before the fault, which is in the last element of its level, is right.
#[test]
fn refused_for_the_last_element() {
    const DEEPEST: usize = 5;
    let mut pair = opened();
    for (answer, levels, name, value) in [
        (7, 2, "Acct", "3"),
        (8, DEEPEST, "Sym", "5"),
        (9, DEEPEST, "MaxOfrQty", "1000000001"),
        (26, 1, "NAccts", "11"),
        (26, 2, "NEqvIxmLmtCfg", "9"),
        (26, 3, "NContrtLmtCfg", "0"),
        (26, 4, "NIxmLmtCfg", "65636"),
        (26, DEEPEST, "Sym", "2"),
        (26, 4, "Contrt", "2"),
        (26, 3, "EqvIxm", "2"),
        (25, DEEPEST, "SecTyp", "&"),
        (25, DEEPEST, "ShortLmt", ""),
    ] {
        let mut file = tree();
        let element = last(&mut file, levels);
        let mut attributes = element.attributes.iter_mut();
        let attribute = attributes.find(|(each, _)| *each == name);
        attribute.expect("an attribute").1 = value.into();
        assert_eq!(pair.load(&file.bytes()), answer, "{name}={value}");
    }
}

#[test]
fn refused_for_the_last_byte() {
    let mut pair = opened();
    let mut file = tree().bytes();
    file.pop();
    assert_eq!(pair.load(&file), 25);
    file.extend(b">x");
    assert_eq!(pair.load(&file), 25);
}

#[test]
fn long_blanks() {
    let blanks = "\r\n\t ".repeat(ELEMENTS as usize);
    let file = String::from_utf8(file(vec![account(1, Vec::new())]).bytes()).expect("letters");
    let mut pair = opened();
    for place in ["<FIXML", "<Acct", " NAccts", "</FIXML"] {
        let (before, after) = file.split_at(file.find(place).expect("there"));
        assert_eq!(pair.load(format!("{before}{blanks}{after}").as_bytes()), 0);
    }
    assert_eq!(pair.load(format!("{file}{blanks}").as_bytes()), 0);
    assert_eq!(pair.load(blanks.as_bytes()), 25);
}

/// Elements in elements of their own name, and runs of one byte.
#[test]
fn no_files() {
    let mut pair = opened();
    let times = ELEMENTS as usize;
    for piece in [
        "<FIXML>",
        "<AcctLmt Acct=\"1\" AcctType=\"\" NEqvIxmLmtCfg=\"1\">",
        "</FIXML>",
        "<",
        ">",
        "\"",
        "0",
        "\0",
    ] {
        let run = piece.repeat(times);
        assert_eq!(pair.load(run.as_bytes()), 25);
        let request = "<FIXML><SetLimRqt BrkFrmId=\"\" NAccts=\"1\">";
        assert_eq!(pair.load(format!("{request}{run}").as_bytes()), 25);
        let text = "<FIXML><SetLimRqt BrkFrmId=\"";
        assert_eq!(pair.load(format!("{text}{run}").as_bytes()), 25);
    }
}
