//! The kinds of day.

mod balances;
mod blocks;
mod draft;
mod edges;
mod figures;
mod full;
mod junk;
mod ladder;
mod lines;
mod rosters;
mod shape;
mod sixteens;
mod sizes;
mod small;
mod traffic;

use crate::Day;

/// A kind of day: a generator of days, each fixed by its seed.
#[derive(Clone, Copy, Debug)]
pub struct Kind {
    pub name: &'static str,
    /// What its days hold.
    pub holds: &'static str,
    /// How many seeds, from 0, it takes for the kind to show all that it holds.
    pub seeds: u64,
    make: fn(u64) -> Day,
}

impl Kind {
    pub fn day(&self, seed: u64) -> Day {
        (self.make)(seed)
    }

    /// The days of the kind's seeds.
    pub fn days(self) -> impl Iterator<Item = Day> {
        (0..self.seeds).map(move |seed| self.day(seed))
    }
}

/// Every kind of day. Their days can be replayed through any gate.
pub fn kinds() -> Vec<Kind> {
    vec![
        traffic::KIND,
        small::KIND,
        junk::EVERY_FIELD,
        junk::NOISE,
        figures::KIND,
        edges::KIND,
        ladder::KIND,
        full::KIND,
        sixteens::KIND,
        lines::KIND,
        blocks::KIND,
        balances::KIND,
        sizes::LARGEST_ROSTER,
        sizes::SMALLEST_ROSTER,
        sizes::LARGEST_FIGURES,
        rosters::KIND,
    ]
}

/// The kind with this name.
pub fn kind(name: &str) -> Kind {
    let named = kinds().into_iter().find(|kind| kind.name == name);
    named.unwrap_or_else(|| panic!("there is no kind of day named {name}"))
}
