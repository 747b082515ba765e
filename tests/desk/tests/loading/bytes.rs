//! Small files with every byte changed.

use std::collections::BTreeMap;

use wire::fixml::{account, contract, file, group, instrument, Element};
use wire::RosterSpec;

use crate::pair::Pair;

/// Every level with limits and without, close to the ends of the roster.
fn elements() -> Element {
    let instruments = vec![
        instrument(1, Some([9, 99, 0, 1_000_000_000])),
        instrument(2, None),
    ];
    let contracts = vec![
        contract(1, Some([1, 2, 3, 4]), instruments),
        contract(2, None, Vec::new()),
    ];
    let groups = vec![
        group(1, Some([999_999_999, 7]), contracts),
        group(2, None, Vec::new()),
    ];
    file(vec![account(1, groups), account(2, Vec::new())])
}

/// As the manual prints its layout.
const PRINTED: &[u8] = br#"<?xml version="1.0" encoding="iso-8859-1"?>
<FIXML>
  <SetLimRqt BrkFrmId="111111" NAccts="1">
    <AcctLmt Acct="1" AcctType="CM" NEqvIxmLmtCfg="1">
      <EqvIxmLmt EqvIxm="1" LongLmt="0000001000" ShortLmt="1000" NContrtLmtCfg="1">
        <ContrtLmt Contrt="1" LongLmt="1000" ShortLmt="1000" MaxBidQty="5000" MaxOfrQty="10000" NIxmLmtCfg="1">
          <IxmLmt Asset="" SecTyp="FUT" Sym="1" LongLmt="1000" ShortLmt="1000" MaxBidQty="5000"
MaxOfrQty="10000"></IxmLmt>
        </ContrtLmt>
      </EqvIxmLmt>
    </AcctLmt>
  </SetLimRqt>
</FIXML>
"#;

const BYTES: [u8; 16] = *b" \t\n09\"'<>/=&x\x0c\0\xff";

/// The files, each accepted by a desk of `roster`.
fn files() -> [Vec<u8>; 2] {
    [elements().bytes(), PRINTED.to_vec()]
}

/// Two accounts, groups and contracts, all of group 1, and two instruments, both of contract 1.
fn opened() -> Pair {
    let roster = RosterSpec {
        accounts: 2,
        groups: 2,
        groups_of: vec![1, 1],
        instruments: vec![(1, 10_000), (1, -5_000)],
    };
    Pair::open(&roster.bytes())
}

#[test]
fn cut_at_every_byte() {
    let mut pair = opened();
    for file in files() {
        let end = file.iter().rposition(|&byte| byte == b'>').expect("a tag");
        for length in 0..=file.len() {
            let answer = pair.load(&file[..length]);
            assert_eq!(answer, if length > end { 0 } else { 25 }, "{length} bytes");
        }
        for start in 1..file.len() {
            pair.load(&file[start..]);
        }
    }
}

/// Loads each file that `change` gives for each place of each file; how often each answer was given.
fn changed(change: impl Fn(&mut Vec<u8>, usize, u8)) -> BTreeMap<u8, usize> {
    let mut pair = opened();
    let mut answers = BTreeMap::new();
    for file in files() {
        for place in 0..file.len() {
            for byte in BYTES {
                let mut file = file.clone();
                change(&mut file, place, byte);
                *answers.entry(pair.load(&file)).or_default() += 1;
            }
        }
    }
    answers
}

#[test]
fn every_byte_exchanged_for_others() {
    let answers = changed(|file, place, byte| file[place] = byte);
    let all: Vec<u8> = answers.keys().copied().collect();
    assert_eq!(all, [0, 7, 8, 9, 25, 26], "{answers:?}");
}

#[test]
fn others_put_before_every_byte() {
    let answers = changed(|file, place, byte| file.insert(place, byte));
    let all: Vec<u8> = answers.keys().copied().collect();
    assert_eq!(all, [0, 7, 8, 9, 25, 26], "{answers:?}");
}

#[test]
fn every_byte_taken_out_or_doubled_and_every_two_exchanged() {
    let mut pair = opened();
    for file in files() {
        for place in 0..file.len() {
            let mut short = file.clone();
            short.remove(place);
            pair.load(&short);
            let mut long = file.clone();
            long.insert(place, file[place]);
            pair.load(&long);
            let mut exchanged = file.clone();
            exchanged.swap(place, (place + 1).min(file.len() - 1));
            pair.load(&exchanged);
        }
    }
}
