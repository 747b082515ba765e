//! Document 01's listing, through the proved desk.

use days::gate::{GroupPosition, InstrumentPosition};
use desk::ProvedDesk;

const DAY: &[u8] = include_bytes!("../../../samples/listing.day");
const OUT: &str = include_str!("../../../samples/listing.out");

/// The listing's roster: one contract and two instruments.
const ROSTER_LENGTH: usize = 8 + 1 + 5 * 2;

#[test]
fn listing_is_printed_byte_for_byte() {
    let mut desk = ProvedDesk::default();
    let (roster, events) = DAY.split_at(ROSTER_LENGTH);
    let mut lines = vec![format!("R {}", desk.open(roster))];
    for (place, event) in (1..).zip(events.chunks(48)) {
        lines.push(format!("E {place} {}", desk.event(event)));
    }
    for number in 1..=2 {
        let position = desk.instrument_position(1, number);
        let InstrumentPosition {
            balance,
            long,
            short,
        } = position.expect("an instrument of the roster");
        lines.push(format!("I 1 {number} {balance} {long} {short}"));
    }
    let GroupPosition { long, short } = desk.group_position(1, 1).expect("a group of the roster");
    lines.push(format!("G 1 1 {long} {short}"));
    assert_eq!(lines.join("\n") + "\n", OUT);
}
