//! A limits file in the FIXML layout of document 000, section 7.7.2, as request W1 reads it: from
//! its bytes to its elements.

use crate::book::{GroupLine, Line};
use crate::tags::{self, Attribute, Tag};

/// The manual's XML declaration.
const DECLARATION: &[u8] = br#"<?xml version="1.0" encoding="iso-8859-1"?>"#;

/// The most digits that a number has.
const DIGITS: usize = 10;
/// The most bytes that a text has.
const TEXT: usize = 100;

/// SetLimRqt. Numbers, counts and figures, here and below, are as they stand in the file, right or
/// not.
#[derive(Clone, PartialEq, Eq, Debug)]
pub struct Request {
    /// NAccts.
    pub count: i64,
    pub accounts: Vec<Account>,
}

/// AcctLmt.
#[derive(Clone, PartialEq, Eq, Debug)]
pub struct Account {
    /// Acct.
    pub number: i64,
    /// NEqvIxmLmtCfg.
    pub count: i64,
    pub groups: Vec<Group>,
}

/// EqvIxmLmt.
#[derive(Clone, PartialEq, Eq, Debug)]
pub struct Group {
    /// EqvIxm.
    pub number: i64,
    pub line: Option<GroupLine>,
    /// NContrtLmtCfg.
    pub count: i64,
    pub contracts: Vec<Contract>,
}

/// ContrtLmt.
#[derive(Clone, PartialEq, Eq, Debug)]
pub struct Contract {
    /// Contrt.
    pub number: i64,
    pub line: Option<Line>,
    /// NIxmLmtCfg.
    pub count: i64,
    pub instruments: Vec<Instrument>,
}

/// IxmLmt.
#[derive(Clone, PartialEq, Eq, Debug)]
pub struct Instrument {
    /// Sym.
    pub number: i64,
    pub line: Option<Line>,
}

/// What a file asks for; `None` where its bytes don't follow the layout.
pub fn read(file: &[u8]) -> Option<Request> {
    let elements = file.strip_prefix(DECLARATION).unwrap_or(file);
    let mut tags = Tags(tags::read(elements)?.into_iter().peekable());
    let (attributes, requests) = tags.element(b"FIXML", request)?;
    let [request] = <[Request; 1]>::try_from(requests).ok()?;
    (attributes.is_empty() && tags.0.next().is_none()).then_some(request)
}

/// The tags that are still to be read.
struct Tags<'a>(std::iter::Peekable<std::vec::IntoIter<Tag<'a>>>);

impl<'a> Tags<'a> {
    /// The next element, if it has this name: its attributes and, each read by `child`, its children.
    fn element<T>(
        &mut self,
        name: &'static [u8],
        child: fn(&mut Tags<'a>) -> Option<T>,
    ) -> Option<(Vec<Attribute<'a>>, Vec<T>)> {
        let start = match self.0.next()? {
            Tag::Start(start) if start.name == name => start,
            _ => return None,
        };
        let mut children = Vec::new();
        if !start.closed {
            while let Tag::Start(_) = self.0.peek()? {
                children.push(child(self)?);
            }
            self.0.next_if_eq(&Tag::End(name))?;
        }
        Some((start.attributes, children))
    }
}

fn request(tags: &mut Tags) -> Option<Request> {
    let (attributes, accounts) = tags.element(b"SetLimRqt", account)?;
    let [(b"BrkFrmId", firm), (b"NAccts", count)] = attributes[..] else {
        return None;
    };
    let count = number(count)?;
    is_text(firm).then_some(Request { count, accounts })
}

fn account(tags: &mut Tags) -> Option<Account> {
    let (attributes, groups) = tags.element(b"AcctLmt", group)?;
    let [(b"Acct", account), (b"AcctType", kind), (b"NEqvIxmLmtCfg", count)] = attributes[..]
    else {
        return None;
    };
    let (number, count) = (number(account)?, number(count)?);
    is_text(kind).then_some(Account {
        number,
        count,
        groups,
    })
}

fn group(tags: &mut Tags) -> Option<Group> {
    let (attributes, contracts) = tags.element(b"EqvIxmLmt", contract)?;
    let [(b"EqvIxm", group), ref limits @ .., (b"NContrtLmtCfg", count)] = attributes[..] else {
        return None;
    };
    let line = match limits {
        [] => None,
        [(b"LongLmt", long), (b"ShortLmt", short)] => Some(GroupLine {
            lcc: number(long)?,
            lvc: number(short)?,
        }),
        _ => return None,
    };
    Some(Group {
        number: number(group)?,
        line,
        count: number(count)?,
        contracts,
    })
}

fn contract(tags: &mut Tags) -> Option<Contract> {
    let (attributes, instruments) = tags.element(b"ContrtLmt", instrument)?;
    let [(b"Contrt", contract), ref limits @ .., (b"NIxmLmtCfg", count)] = attributes[..] else {
        return None;
    };
    Some(Contract {
        number: number(contract)?,
        line: line(limits)?,
        count: number(count)?,
        instruments,
    })
}

fn instrument(tags: &mut Tags) -> Option<Instrument> {
    let (attributes, _) = tags.element(b"IxmLmt", no_child)?;
    let [(b"Asset", asset), (b"SecTyp", kind), (b"Sym", symbol), ref limits @ ..] = attributes[..]
    else {
        return None;
    };
    let (number, line) = (number(symbol)?, line(limits)?);
    (is_text(asset) && is_text(kind)).then_some(Instrument { number, line })
}

/// An instrument has no children.
fn no_child(_: &mut Tags) -> Option<()> {
    None
}

/// The four limits of a contract or an instrument: all present, or all missing.
fn line(limits: &[Attribute]) -> Option<Option<Line>> {
    match *limits {
        [] => Some(None),
        [(b"LongLmt", long), (b"ShortLmt", short), (b"MaxBidQty", bid), (b"MaxOfrQty", offer)] => {
            Some(Some(Line {
                tci: number(bid)?,
                tvi: number(offer)?,
                lci: number(long)?,
                lvi: number(short)?,
            }))
        }
        _ => None,
    }
}

/// 1 to 10 digits, so at most 9,999,999,999.
fn number(value: &[u8]) -> Option<i64> {
    let fits = (1..=DIGITS).contains(&value.len()) && value.iter().all(u8::is_ascii_digit);
    let digits = value.iter().map(|digit| i64::from(digit - b'0'));
    fits.then(|| digits.fold(0, |number, digit| 10 * number + digit))
}

/// Up to 100 bytes without quote, ampersand or angle bracket.
fn is_text(value: &[u8]) -> bool {
    value.len() <= TEXT && !value.iter().any(|byte| b"\"&<>".contains(byte))
}
