//! Document 01's rules, tried on the second implementation.

mod blocks;
mod day;
mod dice;
mod edges;
mod example_a;
mod example_b;
mod faults;
mod fields;
mod fillings;
mod lines;
mod listing;
mod loading;
mod minus_two;
mod orders;
mod precedence;
mod readers;
mod refusals;
mod rosters;
mod signs;
mod soundness;
mod trial;
mod walk;

/// The memory that the rules are tried on.
use reference::{Lent, MEMORY};
