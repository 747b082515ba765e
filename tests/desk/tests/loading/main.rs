//! Limits files through the proved desk and the reference side by side.
#![cfg(feature = "loading")]

mod bytes;
mod checks;
mod days_with_loads;
mod large;
mod memories;
mod one_by_one;
mod pair;
