//! Files that are accepted, spoiled in one way each.

mod bytes;
mod layout;
mod numbers;

use wire::fixml::Element;

use super::{write, TEXTS};
use crate::plain::Roster;
use crate::random::Random;

/// A way to spoil a file.
#[derive(Clone, Copy)]
pub struct Spoiling {
    pub name: &'static str,
    /// What a file that was accepted is answered when it is spoiled so.
    pub answer: u8,
    how: How,
}

/// Where a file has nothing to be spoiled so, there is no spoiled one.
#[derive(Clone, Copy)]
enum How {
    /// Before it is written.
    Elements(fn(&mut Random, &Roster, &mut Element) -> Option<()>),
    /// After it was written, with every text empty.
    Bytes(fn(&mut Random, Vec<u8>) -> Option<Vec<u8>>),
}

/// Every way to spoil a file.
pub fn spoilings() -> Vec<Spoiling> {
    let numbers = [numbers::of_the_tree(), numbers::of_an_element()].concat();
    [numbers, layout::spoilings(), bytes::spoilings()].concat()
}

impl Spoiling {
    /// The bytes of a file spoiled so.
    pub fn spoil(&self, random: &mut Random, roster: &Roster, file: &Element) -> Option<Vec<u8>> {
        let mut file = file.clone();
        match self.how {
            How::Elements(spoil) => {
                spoil(random, roster, &mut file)?;
                Some(write(random, &file))
            }
            How::Bytes(spoil) => {
                empty_texts(&mut file);
                let bytes = write(random, &file);
                spoil(random, bytes)
            }
        }
    }
}

/// A file spoiled at up to three places, so that it may fail several questions.
pub fn several(random: &mut Random, roster: &Roster, file: &Element) -> Vec<u8> {
    let mut file = file.clone();
    for _ in 0..3 {
        let spoilings = match random.below(10) {
            0 => layout::spoilings(),
            1..=2 => numbers::of_the_tree(),
            _ => numbers::of_an_element(),
        };
        if let How::Elements(spoil) = random.one_of(&spoilings).how {
            spoil(random, roster, &mut file);
        }
    }
    write(random, &file)
}

fn empty_texts(element: &mut Element) {
    for (_, text) in element
        .attributes
        .iter_mut()
        .filter(|(name, _)| TEXTS.contains(name))
    {
        text.clear();
    }
    element.children.iter_mut().for_each(empty_texts);
}

/// Spoilings that all have the same answer.
fn answered(answer: u8, how: &[(&'static str, How)]) -> Vec<Spoiling> {
    let spoiling = |&(name, how)| Spoiling { name, answer, how };
    how.iter().map(spoiling).collect()
}
