//! Document 01's plain book, kept from a roster, events and their answers alone.
//!
//! Nothing here looks at a gate's state, and nothing here judges by a limit.

mod book;
mod event;
mod roster;

pub use book::{Balances, Book, Order};
pub use event::{Block, Event, Line, Side};
pub use roster::Roster;
