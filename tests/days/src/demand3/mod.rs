//! Demand 3 by brute force: every filling of the open orders, one by one.
//!
//! The check keeps the plain book from the roster, the events and the gate's answers. It knows
//! balances, fillings and limits; it has no formula for a potential position.

mod check;
mod entry;
mod filling;
mod furthest;
mod position;
mod questions;
mod report;

pub use check::check;
pub use furthest::{
    answer, furthest_by_whole_fills, furthest_of_all_fillings, limits_reached, Reading,
};
pub use position::Place;
pub use questions::before_limits;
pub use report::{Counts, Report, Violation};
