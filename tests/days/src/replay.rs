//! A day through two gates, side by side.

use std::collections::BTreeMap;
use std::fmt::Debug;

use crate::gate::Gate;
use crate::Day;

/// The first thing in which two gates differ.
#[derive(Clone, PartialEq, Eq, Debug)]
pub struct Difference {
    /// What was answered or read, and after how many events.
    pub what: String,
    pub left: String,
    pub right: String,
}

/// A roster with at most this many positions has all of them read after each event.
const FEW_POSITIONS: usize = 16;

/// Replays a day through two fresh gates and gives the first difference in an answer or a position.
///
/// After each event the positions of all accounts are read on a small roster, else those of the
/// event's account; after the last event those of all accounts. The numbers just past the roster
/// are read as well.
pub fn first_difference(
    day: &Day,
    left: &mut dyn Gate,
    right: &mut dyn Gate,
) -> Option<Difference> {
    let opened = (left.open(&day.roster), right.open(&day.roster));
    let difference = differs("the opening", opened.0, opened.1);
    if difference.is_some() {
        return difference;
    }
    let reader = Reader::of(&day.roster);
    let mut accounts_of = BTreeMap::new();
    for (place, event) in day.events.iter().enumerate() {
        let what = format!("event {}", place + 1);
        let account = account_of(event, &mut accounts_of);
        let answered = (left.event(event), right.event(event));
        let difference = differs(&what, answered.0, answered.1)
            .or_else(|| reader.after_event(&what, account, left, right));
        if difference.is_some() {
            return difference;
        }
    }
    reader.all("the last event", left, right)
}

/// The account that an event names, or that the latest NEW with its id named.
fn account_of(event: &[u8], accounts_of: &mut BTreeMap<u64, u16>) -> u16 {
    let Ok(bytes) = <[u8; 48]>::try_from(event) else {
        return 0;
    };
    let account = u16::from_le_bytes([bytes[2], bytes[3]]);
    let id = u64::from_le_bytes(bytes[8..16].try_into().expect("eight bytes"));
    match bytes[0] {
        4 => {
            accounts_of.insert(id, account);
            account
        }
        5..=7 => accounts_of.get(&id).copied().unwrap_or(0),
        _ => account,
    }
}

/// Reads positions of a roster, within it and just past it.
struct Reader {
    accounts: u16,
    groups: u16,
    instruments: u16,
}

impl Reader {
    fn of(roster: &[u8]) -> Reader {
        let size = |place: usize, most: u16| match roster.get(place..place + 2) {
            Some(two) => u16::from_le_bytes([two[0], two[1]]).min(most),
            None => 0,
        };
        Reader {
            accounts: size(0, 16),
            groups: size(2, 4),
            instruments: size(6, 32),
        }
    }

    fn after_event(
        &self,
        what: &str,
        account: u16,
        left: &dyn Gate,
        right: &dyn Gate,
    ) -> Option<Difference> {
        let positions = self.accounts * (self.groups + self.instruments);
        match usize::from(positions) <= FEW_POSITIONS {
            true => self.all(what, left, right),
            false => self.of_account(what, account, left, right),
        }
    }

    fn all(&self, what: &str, left: &dyn Gate, right: &dyn Gate) -> Option<Difference> {
        (0..=self.accounts + 1).find_map(|account| self.of_account(what, account, left, right))
    }

    fn of_account(
        &self,
        what: &str,
        account: u16,
        left: &dyn Gate,
        right: &dyn Gate,
    ) -> Option<Difference> {
        let instrument = |instrument| {
            let what = format!("instrument {instrument} of account {account} after {what}");
            let read = |gate: &dyn Gate| gate.instrument_position(account, instrument);
            differs(&what, read(left), read(right))
        };
        let group = |group| {
            let what = format!("group {group} of account {account} after {what}");
            let read = |gate: &dyn Gate| gate.group_position(account, group);
            differs(&what, read(left), read(right))
        };
        (0..=self.instruments + 1)
            .find_map(instrument)
            .or_else(|| (0..=self.groups + 1).find_map(group))
    }
}

fn differs<T: PartialEq + Debug>(what: &str, left: T, right: T) -> Option<Difference> {
    (left != right).then(|| Difference {
        what: what.to_string(),
        left: format!("{left:?}"),
        right: format!("{right:?}"),
    })
}
