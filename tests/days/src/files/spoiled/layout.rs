//! Elements and attributes that don't follow the layout: 25.

use wire::fixml::{account, contract, file, group, instrument, Element};

use super::{answered, How, Spoiling};
use crate::files::{pick, TEXTS};
use crate::plain::Roster;
use crate::random::Random;

pub fn spoilings() -> Vec<Spoiling> {
    answered(
        25,
        &[
            ("an attribute is missing", How::Elements(attribute_missing)),
            ("an attribute comes twice", How::Elements(attribute_twice)),
            ("an attribute too many", How::Elements(attribute_too_many)),
            (
                "an attribute has another name",
                How::Elements(attribute_renamed),
            ),
            (
                "two attributes are exchanged",
                How::Elements(attributes_exchanged),
            ),
            ("a number has no digits", How::Elements(number_empty)),
            (
                "a number has more than 10 digits",
                How::Elements(number_long),
            ),
            ("a number holds another byte", How::Elements(number_other)),
            ("a text has more than 100 bytes", How::Elements(text_long)),
            (
                "a text holds a byte that it must not",
                How::Elements(text_other),
            ),
            (
                "an element has another name",
                How::Elements(element_renamed),
            ),
            (
                "an element stands at another level",
                How::Elements(element_misplaced),
            ),
            ("another number of requests", How::Elements(requests)),
        ],
    )
}

const NAMES: [&str; 8] = [
    "FIXML",
    "SetLimRqt",
    "AcctLmt",
    "EqvIxmLmt",
    "ContrtLmt",
    "IxmLmt",
    "SetLimReq",
    "ContrLmt",
];

const ATTRIBUTES: [&str; 18] = [
    "BrkFrmId",
    "NAccts",
    "Acct",
    "AcctType",
    "NEqvIxmLmtCfg",
    "EqvIxm",
    "LongLmt",
    "ShortLmt",
    "NContrtLmtCfg",
    "Contrt",
    "MaxBidQty",
    "MaxOfrQty",
    "NIxmLmtCfg",
    "NIXmLmtCfg",
    "Asset",
    "SecTyp",
    "Sym",
    "sym",
];

/// An element with attributes: any but FIXML.
fn any<'a>(random: &mut Random, file: &'a mut Element) -> Option<&'a mut Element> {
    pick(random, file, |element| !element.attributes.is_empty())
}

fn attribute_missing(random: &mut Random, _: &Roster, file: &mut Element) -> Option<()> {
    let attributes = &mut any(random, file)?.attributes;
    attributes.remove(random.below(attributes.len()));
    Some(())
}

fn attribute_twice(random: &mut Random, _: &Roster, file: &mut Element) -> Option<()> {
    let attributes = &mut any(random, file)?.attributes;
    let attribute = attributes[random.below(attributes.len())].clone();
    attributes.insert(random.below(attributes.len() + 1), attribute);
    Some(())
}

fn attribute_too_many(random: &mut Random, _: &Roster, file: &mut Element) -> Option<()> {
    let attributes = &mut any(random, file)?.attributes;
    let attribute = (random.one_of(&ATTRIBUTES), b"1".to_vec());
    attributes.insert(random.below(attributes.len() + 1), attribute);
    Some(())
}

fn attribute_renamed(random: &mut Random, _: &Roster, file: &mut Element) -> Option<()> {
    let attributes = &mut any(random, file)?.attributes;
    let place = random.below(attributes.len());
    let other = random.one_of(&ATTRIBUTES);
    let attribute = &mut attributes[place];
    let changes = attribute.0 != other;
    attribute.0 = other;
    changes.then_some(())
}

fn attributes_exchanged(random: &mut Random, _: &Roster, file: &mut Element) -> Option<()> {
    let element = pick(random, file, |element| element.attributes.len() > 1)?;
    let place = random.below(element.attributes.len() - 1);
    element.attributes.swap(place, place + 1);
    Some(())
}

/// The value of an attribute that holds a text, or of one that holds a number.
fn a_value<'a>(random: &mut Random, file: &'a mut Element, text: bool) -> Option<&'a mut Vec<u8>> {
    let wanted = |(name, _): &(&str, Vec<u8>)| TEXTS.contains(name) == text;
    let element = pick(random, file, |element| {
        element.attributes.iter().any(wanted)
    })?;
    let values = element
        .attributes
        .iter_mut()
        .filter(|attribute| wanted(attribute));
    let mut values: Vec<&mut Vec<u8>> = values.map(|(_, value)| value).collect();
    Some(values.swap_remove(random.below(values.len())))
}

fn number_empty(random: &mut Random, _: &Roster, file: &mut Element) -> Option<()> {
    a_value(random, file, false)?.clear();
    Some(())
}

fn number_long(random: &mut Random, _: &Roster, file: &mut Element) -> Option<()> {
    let digits = a_value(random, file, false)?;
    while digits.len() < random.one_of(&[11, 12, 20, 100]) {
        digits.insert(0, b'0');
    }
    Some(())
}

fn number_other(random: &mut Random, _: &Roster, file: &mut Element) -> Option<()> {
    let digits = a_value(random, file, false)?;
    let place = random.below(digits.len() + 1);
    digits.insert(place, random.one_of(b" \t\n+-.,/:xA\0\xff"));
    Some(())
}

fn text_long(random: &mut Random, _: &Roster, file: &mut Element) -> Option<()> {
    let text = a_value(random, file, true)?;
    text.resize(random.one_of(&[101, 102, 128, 256, 357, 1_000]), b'x');
    Some(())
}

fn text_other(random: &mut Random, _: &Roster, file: &mut Element) -> Option<()> {
    let text = a_value(random, file, true)?;
    text.truncate(99);
    let place = random.below(text.len() + 1);
    text.insert(place, random.one_of(b"\"&<>"));
    Some(())
}

fn element_renamed(random: &mut Random, _: &Roster, file: &mut Element) -> Option<()> {
    let element = pick(random, file, |_| true)?;
    let other = random.one_of(&NAMES);
    let changes = element.name != other;
    element.name = other;
    changes.then_some(())
}

/// Puts an element under one whose children are others.
fn element_misplaced(random: &mut Random, _: &Roster, root: &mut Element) -> Option<()> {
    let parent = pick(random, root, |_| true)?;
    let levels = [
        file(Vec::new()),
        file(Vec::new()).children.remove(0),
        account(1, Vec::new()),
        group(1, None, Vec::new()),
        contract(1, None, Vec::new()),
        instrument(1, None),
    ];
    let level = levels
        .iter()
        .position(|element| element.name == parent.name)?;
    let place = random.below(levels.len());
    if place == level + 1 {
        return None;
    }
    let before = random.below(parent.children.len() + 1);
    parent.children.insert(before, levels[place].clone());
    Some(())
}

/// None, or two.
fn requests(random: &mut Random, _: &Roster, file: &mut Element) -> Option<()> {
    match random.chance(50) {
        true => file.children.clear(),
        false => file.children.extend_from_within(..),
    }
    Some(())
}
