//! Opening a desk: questions 1 to 4.

use crate::desk::MEMORY;
use crate::roster::Roster;

/// The roster that an accepted opening takes, or the number of the first question answered no.
pub fn judge(length_of_memory: usize, bytes: &[u8]) -> Result<Roster, u8> {
    // 1. Is the lent memory long enough?
    if length_of_memory < MEMORY {
        return Err(1);
    }
    // 2. Are the sizes within their limits and the length exact?
    let roster = Roster::read(bytes).ok_or(2)?;
    // 3. Does every contract name a group of the roster, and every instrument a contract?
    if !roster.names_only_what_it_has() {
        return Err(3);
    }
    // 4. Is every weight in range?
    if !roster.has_every_weight_in_range() {
        return Err(4);
    }
    Ok(roster)
}
