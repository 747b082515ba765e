//! A second implementation of document 01 and of document 02's request W1, in plain data structures.
//!
//! It is written from the documents alone and follows them sentence by sentence; it shares no code
//! and no layout with the gate. A lent memory is only its length and the desk it holds.

pub mod book;
pub mod day;
pub mod decoding;
pub mod desk;
pub mod event;
pub mod fixml;
pub mod loading;
pub mod numbered;
pub mod opening;
pub mod order;
pub mod positions;
pub mod questions;
pub mod roster;
pub mod sound;
pub mod tags;

pub use book::{Book, GroupLine, Line};
pub use day::day;
pub use desk::{Desk, GroupPosition, InstrumentPosition, Lent, MEMORY};
pub use event::Event;
pub use numbered::Numbered;
pub use order::{Order, Side};
pub use roster::Roster;
