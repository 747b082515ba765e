//! The day program.

use std::io::{self, Read, Write};

use crate::decoding::EVENT_LENGTH;
use crate::desk::{Lent, MEMORY};
use crate::roster::{Roster, Sizes};

/// Reads one roster, as long as its sizes say, and then events; prints each answer and, at the end,
/// every position.
pub fn day(mut input: impl Read, mut output: impl Write) -> io::Result<()> {
    let mut lent = Lent::new(MEMORY);
    let number = lent.open(&read_roster(&mut input)?);
    writeln!(output, "R {number}")?;
    if number == 0 {
        work_events(&mut lent, &mut input, &mut output)?;
        if let Some(desk) = lent.desk() {
            print_positions(&lent, &desk.roster, &mut output)?;
        }
    }
    output.flush()
}

/// The sizes, and the rest as long as they say if they are within their limits.
fn read_roster(input: &mut impl Read) -> io::Result<Vec<u8>> {
    let mut roster = read_up_to(input, Sizes::LENGTH)?;
    if let Some(sizes) = Sizes::read(&roster).filter(Sizes::are_within_limits) {
        roster.extend(read_up_to(input, sizes.roster_length() - Sizes::LENGTH)?);
    }
    Ok(roster)
}

/// For each event: `E`, its place from 1, the number. A short last event is an event too.
fn work_events(lent: &mut Lent, input: &mut impl Read, output: &mut impl Write) -> io::Result<()> {
    for place in 1u64.. {
        let event = read_up_to(input, EVENT_LENGTH)?;
        if event.is_empty() {
            break;
        }
        writeln!(output, "E {place} {}", lent.event(&event))?;
    }
    Ok(())
}

/// Accounts ascending, each instrument; then, accounts ascending, each group.
fn print_positions(lent: &Lent, roster: &Roster, output: &mut impl Write) -> io::Result<()> {
    for account in 1..=roster.accounts {
        for instrument in 1..=roster.instruments() {
            let position = lent.instrument_position(account, instrument);
            let position = position.expect("the roster has this account and instrument");
            let (s, pci, pvi) = (position.balance, position.long, position.short);
            writeln!(output, "I {account} {instrument} {s} {pci} {pvi}")?;
        }
    }
    for account in 1..=roster.accounts {
        for group in 1..=roster.groups {
            let position = lent.group_position(account, group);
            let position = position.expect("the roster has this account and group");
            let (pcc, pvc) = (position.long, position.short);
            writeln!(output, "G {account} {group} {pcc} {pvc}")?;
        }
    }
    Ok(())
}

/// The next `count` bytes, or fewer where the input ends.
fn read_up_to(input: &mut impl Read, count: usize) -> io::Result<Vec<u8>> {
    let mut bytes = Vec::new();
    input.by_ref().take(count as u64).read_to_end(&mut bytes)?;
    Ok(bytes)
}
