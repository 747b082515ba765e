//! Days for testing a limit gate: generators of rosters, events and limits files, a replay through
//! two gates, and a brute-force check of demand 3.
//!
//! A day is bytes only. [`kinds::kinds`] lists the generators, each fixed by its seed.

pub mod answers;
pub mod class;
pub mod demand3;
pub mod faults;
pub mod files;
pub mod gate;
pub mod kinds;
pub mod opening;
pub mod plain;
pub mod random;
pub mod replay;
pub mod steps;

/// One roster and the events after it. An event is any bytes.
#[derive(Clone, PartialEq, Eq, Debug)]
pub struct Day {
    pub roster: Vec<u8>,
    pub events: Vec<Vec<u8>>,
}
