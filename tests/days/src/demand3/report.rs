//! What a check over a day found.

use std::collections::BTreeMap;
use std::ops::AddAssign;

use super::entry::Entry;
use crate::plain::Event;

/// What a gate can be caught at.
#[derive(Clone, Copy, PartialEq, Eq, PartialOrd, Ord, Debug)]
pub enum Violation {
    /// Demand 2: the answer is not the first failed question, asked of the plain book.
    Answer,
    /// Demand 2: a position read is not the furthest that a filling of the plain book reaches.
    Position,
    /// Demand 3, first half: N is not refused for a position limit, yet some filling is past.
    PastNotRefused,
    /// Demand 3, first half: N is refused for a position limit, yet no filling is past.
    RefusedNotPast,
    /// Demand 3, second half: N was accepted, and later a position is past its limit.
    PastLater,
}

/// How often a check came by each of its branches.
#[derive(Clone, Copy, PartialEq, Eq, Default, Debug)]
pub struct Counts {
    /// N's that were refused for a position limit, by 21, 22, 23 and 24.
    pub refused: [u64; 4],
    /// Of these, REPLACEs that raise.
    pub refused_raises: u64,
    /// N's that were accepted.
    pub accepted: u64,
    /// Of these, REPLACEs that raise.
    pub accepted_raises: u64,
    /// Of the accepted, those of weight 0, which move no group.
    pub accepted_without_group: u64,
    /// Of the accepted, those whose instrument or group is past its limit on the other side.
    pub accepted_past_elsewhere: u64,
    /// Of the accepted, those after which some filling reaches a limit exactly.
    pub accepted_at_limit: u64,
    /// N's whose account has another open buy and another open sell in the same instrument.
    pub between_sides: u64,
    /// N's whose account has an open order in another instrument of the group that N moves.
    pub with_neighbour: u64,
    /// Events after which a watched position was checked for every filling.
    pub later_events: u64,
    /// Of these, accepted FILLs.
    pub later_fills: u64,
    /// Watched positions whose limit was set again.
    pub set_again: u64,
    /// Accepted LIMITs that set again no limit that applies to a watched position.
    pub set_elsewhere: u64,
    /// Positions that were read and compared.
    pub positions: u64,
    /// Days that ended early because of too many fillings.
    pub too_wide: u64,
}

impl Counts {
    /// Counts an N and its answer.
    pub(super) fn judged(&mut self, entry: &Entry, answer: u8) {
        let raises = u64::from(entry.raises);
        self.between_sides += u64::from(entry.stands_between_sides());
        self.with_neighbour += u64::from(entry.has_neighbour());
        match answer {
            0 => {
                self.accepted += 1;
                self.accepted_raises += raises;
                self.accepted_without_group += u64::from(entry.limits.len() == 1);
                self.accepted_past_elsewhere += u64::from(entry.is_past_elsewhere());
                self.accepted_at_limit += u64::from(entry.reaches_a_limit());
            }
            21..=24 => {
                self.refused[usize::from(answer) - 21] += 1;
                self.refused_raises += raises;
            }
            _ => {}
        }
    }

    /// Counts an accepted event that left `left` of the watched positions under watch.
    pub(super) fn worked(&mut self, event: &Event, watched: usize, left: usize) {
        self.set_again += (watched - left) as u64;
        self.later_events += u64::from(left > 0);
        self.later_fills += u64::from(left > 0 && matches!(event, Event::Fill { .. }));
        let limit = matches!(event, Event::Limit { .. });
        self.set_elsewhere += u64::from(limit && left > 0 && left == watched);
    }
}

impl AddAssign for Counts {
    fn add_assign(&mut self, other: Counts) {
        for (mine, others) in self.refused.iter_mut().zip(other.refused) {
            *mine += others;
        }
        self.refused_raises += other.refused_raises;
        self.accepted += other.accepted;
        self.accepted_raises += other.accepted_raises;
        self.accepted_without_group += other.accepted_without_group;
        self.accepted_past_elsewhere += other.accepted_past_elsewhere;
        self.accepted_at_limit += other.accepted_at_limit;
        self.between_sides += other.between_sides;
        self.with_neighbour += other.with_neighbour;
        self.later_events += other.later_events;
        self.later_fills += other.later_fills;
        self.set_again += other.set_again;
        self.set_elsewhere += other.set_elsewhere;
        self.positions += other.positions;
        self.too_wide += other.too_wide;
    }
}

/// What a check found: the counts, and for each sort of violation where it was first met.
#[derive(Clone, PartialEq, Eq, Default, Debug)]
pub struct Report {
    pub counts: Counts,
    pub violations: BTreeMap<Violation, String>,
}

impl Report {
    /// Keeps where a violation was first met.
    pub(super) fn note(&mut self, violation: Violation, what: impl FnOnce() -> String) {
        self.violations.entry(violation).or_insert_with(what);
    }

    /// Adds what the check of another day found.
    pub fn add(&mut self, other: Report) {
        self.counts += other.counts;
        for (violation, what) in other.violations {
            self.violations.entry(violation).or_insert(what);
        }
    }
}
