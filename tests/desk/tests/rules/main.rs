//! Document 01's rules, the edges and the manual's examples among them, and the rules of limits files,
//! tried on the proved desk as they are on the second implementation.

/// The memory that the rules are tried on.
use desk::ProvedDesk as Lent;
use reference::MEMORY;

#[path = "../../../reference/tests/rules/blocks.rs"]
mod blocks;
#[path = "../../../reference/tests/rules/dice.rs"]
mod dice;
#[path = "../../../reference/tests/rules/edges.rs"]
mod edges;
#[path = "../../../reference/tests/rules/example_a.rs"]
mod example_a;
#[path = "../../../reference/tests/rules/example_b.rs"]
mod example_b;
#[path = "../../../reference/tests/rules/faults.rs"]
mod faults;
#[path = "../../../reference/tests/rules/fields.rs"]
mod fields;
#[path = "../../../reference/tests/rules/lines.rs"]
mod lines;
#[cfg(feature = "loading")]
#[path = "../../../reference/tests/rules/loading/mod.rs"]
mod loading;
#[path = "../../../reference/tests/rules/minus_two.rs"]
mod minus_two;
#[path = "../../../reference/tests/rules/orders.rs"]
mod orders;
#[path = "../../../reference/tests/rules/precedence.rs"]
mod precedence;
#[path = "../../../reference/tests/rules/readers.rs"]
mod readers;
#[path = "../../../reference/tests/rules/rosters.rs"]
mod rosters;
#[path = "../../../reference/tests/rules/signs.rs"]
mod signs;
#[path = "../../../reference/tests/rules/trial.rs"]
mod trial;
#[path = "../../../reference/tests/rules/walk.rs"]
mod walk;
