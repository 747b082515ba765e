//! The bytes of document 01, rosters and events, and of document 02's limits files, built from their
//! figures.
//!
//! Nothing here judges. A spec with figures out of range still gives its bytes, so that junk can be
//! built as well as sound traffic.

mod event;
pub mod fixml;
mod roster;

pub use event::{
    balance, block, block_level, cancel, fill, kind, limit, limit_level, new, replace, Fields, BUY,
    EVENT_LENGTH, SELL,
};
pub use roster::RosterSpec;
