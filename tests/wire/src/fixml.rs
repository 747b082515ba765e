//! A limits file as bytes: the FIXML layout of document 000, section 7.7.2.

/// The manual's XML declaration, which may precede.
pub const DECLARATION: &[u8] = br#"<?xml version="1.0" encoding="iso-8859-1"?>"#;

/// An element: its name, its attributes, each a name and a value, and its children.
#[derive(Clone, PartialEq, Eq, Debug)]
pub struct Element {
    pub name: &'static str,
    pub attributes: Vec<(&'static str, Vec<u8>)>,
    pub children: Vec<Element>,
}

/// What the layout leaves to whoever writes a file.
pub trait Hand {
    /// Blanks around a tag: any number of them.
    fn around_tag(&mut self) -> Vec<u8>;

    /// Blanks before an attribute: at least one.
    fn before_attribute(&mut self) -> Vec<u8>;

    /// Whether an element without children closes with `/>`.
    fn closes_at_once(&mut self) -> bool;
}

/// No blanks but a space before each attribute; an element without children closes with `/>`.
pub struct Plain;

impl Hand for Plain {
    fn around_tag(&mut self) -> Vec<u8> {
        Vec::new()
    }

    fn before_attribute(&mut self) -> Vec<u8> {
        b" ".to_vec()
    }

    fn closes_at_once(&mut self) -> bool {
        true
    }
}

impl Element {
    pub fn bytes(&self) -> Vec<u8> {
        self.written_by(&mut Plain)
    }

    /// The bytes of the element with blanks around it.
    pub fn written_by(&self, hand: &mut impl Hand) -> Vec<u8> {
        let mut bytes = Vec::new();
        self.write(hand, &mut bytes);
        bytes.extend(hand.around_tag());
        bytes
    }

    /// Writes the element, each tag behind its blanks.
    fn write(&self, hand: &mut impl Hand, bytes: &mut Vec<u8>) {
        bytes.extend(hand.around_tag());
        bytes.extend([b"<", self.name.as_bytes()].concat());
        for (name, value) in &self.attributes {
            bytes.extend(hand.before_attribute());
            bytes.extend([name.as_bytes(), b"=\"", value, b"\""].concat());
        }
        if self.children.is_empty() && hand.closes_at_once() {
            bytes.extend(b"/>");
            return;
        }
        bytes.extend(b">");
        for child in &self.children {
            child.write(hand, bytes);
        }
        bytes.extend(hand.around_tag());
        bytes.extend([b"</", self.name.as_bytes(), b">"].concat());
    }
}

/// The whole file: FIXML and, in it, SetLimRqt with these accounts.
pub fn file(accounts: Vec<Element>) -> Element {
    let request = Element {
        name: "SetLimRqt",
        attributes: vec![text("BrkFrmId"), count("NAccts", &accounts)],
        children: accounts,
    };
    Element {
        name: "FIXML",
        attributes: Vec::new(),
        children: vec![request],
    }
}

pub fn account(account: u64, groups: Vec<Element>) -> Element {
    Element {
        name: "AcctLmt",
        attributes: vec![
            number("Acct", account),
            text("AcctType"),
            count("NEqvIxmLmtCfg", &groups),
        ],
        children: groups,
    }
}

/// The figures are LCC and LVC.
pub fn group(group: u64, figures: Option<[u64; 2]>, contracts: Vec<Element>) -> Element {
    let mut attributes = vec![number("EqvIxm", group)];
    if let Some([lcc, lvc]) = figures {
        attributes.extend([number("LongLmt", lcc), number("ShortLmt", lvc)]);
    }
    attributes.push(count("NContrtLmtCfg", &contracts));
    Element {
        name: "EqvIxmLmt",
        attributes,
        children: contracts,
    }
}

/// The figures are TCI, TVI, LCI and LVI, as in an event.
pub fn contract(contract: u64, figures: Option<[u64; 4]>, instruments: Vec<Element>) -> Element {
    let mut attributes = vec![number("Contrt", contract)];
    attributes.extend(figures.into_iter().flat_map(line));
    attributes.push(count("NIxmLmtCfg", &instruments));
    Element {
        name: "ContrtLmt",
        attributes,
        children: instruments,
    }
}

/// The figures are TCI, TVI, LCI and LVI, as in an event.
pub fn instrument(instrument: u64, figures: Option<[u64; 4]>) -> Element {
    let mut attributes = vec![text("Asset"), text("SecTyp"), number("Sym", instrument)];
    attributes.extend(figures.into_iter().flat_map(line));
    Element {
        name: "IxmLmt",
        attributes,
        children: Vec::new(),
    }
}

/// The four limits in the file's order: long, short, bid, offer.
fn line([tci, tvi, lci, lvi]: [u64; 4]) -> [(&'static str, Vec<u8>); 4] {
    [
        number("LongLmt", lci),
        number("ShortLmt", lvi),
        number("MaxBidQty", tci),
        number("MaxOfrQty", tvi),
    ]
}

/// A text, empty.
fn text(name: &'static str) -> (&'static str, Vec<u8>) {
    (name, Vec::new())
}

fn number(name: &'static str, number: u64) -> (&'static str, Vec<u8>) {
    (name, number.to_string().into_bytes())
}

fn count(name: &'static str, children: &[Element]) -> (&'static str, Vec<u8>) {
    number(name, children.len() as u64)
}
