//! Files as different hands write them.

use wire::fixml::{Element, Hand, DECLARATION};

use crate::random::Random;

const BLANKS: [u8; 4] = [b' ', b'\t', b'\r', b'\n'];

/// The bytes of a file, with the declaration or without it.
pub fn write(random: &mut Random, file: &Element) -> Vec<u8> {
    let mut bytes = match random.chance(50) {
        true => DECLARATION.to_vec(),
        false => Vec::new(),
    };
    let blanks = random.one_of(&[0, 10, 50]);
    let closed = random.one_of(&[0, 50, 100]);
    bytes.extend(file.written_by(&mut AnyHand {
        random,
        blanks,
        closed,
    }));
    bytes
}

/// A hand that writes more or fewer blanks than needed, and closes elements as it likes.
struct AnyHand<'a> {
    random: &'a mut Random,
    /// In how many of a hundred places it puts blanks that are not needed.
    blanks: usize,
    /// How many of a hundred elements without children it closes with `/>`.
    closed: usize,
}

impl AnyHand<'_> {
    fn blanks(&mut self) -> Vec<u8> {
        let count = match self.random.chance(self.blanks) {
            true => self.random.one_of(&[1, 1, 2, 3, 40]),
            false => 0,
        };
        (0..count).map(|_| self.random.one_of(&BLANKS)).collect()
    }
}

impl Hand for AnyHand<'_> {
    fn around_tag(&mut self) -> Vec<u8> {
        self.blanks()
    }

    fn before_attribute(&mut self) -> Vec<u8> {
        let mut blanks = self.blanks();
        blanks.push(match self.random.chance(self.blanks) {
            true => self.random.one_of(&BLANKS),
            false => b' ',
        });
        blanks
    }

    fn closes_at_once(&mut self) -> bool {
        self.random.chance(self.closed)
    }
}
