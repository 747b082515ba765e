//! Limits files for a roster: such as its desk accepts, with their LIMIT events, and such with a
//! fault.

mod elements;
pub mod faulty;
mod hand;
mod noise;
mod spoiled;
mod steps;

pub use elements::{elements, events};
pub use hand::write;
pub use noise::noise;
pub use spoiled::{several, spoilings, Spoiling};
pub use steps::{steps, Step};

use wire::fixml::Element;

use crate::random::Random;

/// The attributes that hold a text.
const TEXTS: [&str; 4] = ["BrkFrmId", "AcctType", "Asset", "SecTyp"];
/// Those that hold a number of the roster.
const NUMBERS: [&str; 4] = ["Acct", "EqvIxm", "Contrt", "Sym"];
/// Those that hold a limit.
const LIMITS: [&str; 4] = ["LongLmt", "ShortLmt", "MaxBidQty", "MaxOfrQty"];
/// Those that hold a count of children.
const COUNTS: [&str; 4] = ["NAccts", "NEqvIxmLmtCfg", "NContrtLmtCfg", "NIxmLmtCfg"];

/// The value of the first attribute with one of these names.
fn value<'a>(element: &'a Element, names: &[&str]) -> Option<&'a [u8]> {
    let attribute = element
        .attributes
        .iter()
        .find(|(name, _)| names.contains(name));
    attribute.map(|(_, value)| &value[..])
}

/// Gives the first attribute with one of these names another value.
fn set(element: &mut Element, names: &[&str], to: impl ToString) -> Option<()> {
    let mut attributes = element.attributes.iter_mut();
    let attribute = attributes.find(|(name, _)| names.contains(name))?;
    attribute.1 = to.to_string().into_bytes();
    Some(())
}

/// An element and all in it, in the order in which they begin.
fn all(element: &Element) -> Vec<&Element> {
    let mut found = vec![element];
    found.extend(element.children.iter().flat_map(all));
    found
}

/// One of the elements that are wanted, if there is any.
fn pick<'a>(
    random: &mut Random,
    root: &'a mut Element,
    wanted: impl Fn(&Element) -> bool,
) -> Option<&'a mut Element> {
    match all(root).into_iter().filter(|each| wanted(each)).count() {
        0 => None,
        count => nth(root, &mut random.below(count), &wanted),
    }
}

/// Of the elements that are wanted the one with this many before it.
fn nth<'a>(
    element: &'a mut Element,
    before: &mut usize,
    wanted: &impl Fn(&Element) -> bool,
) -> Option<&'a mut Element> {
    if wanted(element) {
        if *before == 0 {
            return Some(element);
        }
        *before -= 1;
    }
    let mut children = element.children.iter_mut();
    children.find_map(|child| nth(child, before, wanted))
}
