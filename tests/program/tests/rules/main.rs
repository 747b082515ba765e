//! The edges and the manual's examples through the day program, as they are tried on the second
//! implementation.

/// What the rules are tried on.
use program::replayed::Replayed as Lent;
use reference::MEMORY;

#[path = "../../../reference/tests/rules/edges.rs"]
mod edges;
#[path = "../../../reference/tests/rules/example_a.rs"]
mod example_a;
#[path = "../../../reference/tests/rules/example_b.rs"]
mod example_b;
#[path = "../../../reference/tests/rules/faults.rs"]
mod faults;
#[path = "../../../reference/tests/rules/signs.rs"]
mod signs;
#[path = "../../../reference/tests/rules/trial.rs"]
mod trial;
