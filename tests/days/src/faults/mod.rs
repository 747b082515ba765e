//! Gates with faults, to see that a check can fail.
//!
//! Each is the reference with what it sees, keeps or says distorted: the plausible faults of
//! document 01 and some more, and its gates that do no work.

mod counted;
mod idle;
mod kept;
mod lines;
mod seen;

use reference::{Desk, Lent, Order, Side, MEMORY};

use crate::demand3::Violation;
use crate::gate::{self, Gate, GroupPosition, InstrumentPosition};
use crate::plain::{self, Event};

/// A sort of faulty gate.
pub struct Fault {
    pub name: &'static str,
    /// The violations that the check of demand 3 must report over many days, at least.
    pub caught_at: &'static [Violation],
    how: How,
}

/// What is wrong with a gate.
#[derive(Clone, Copy)]
enum How {
    /// It judges over a desk that this has changed.
    Sees(fn(&mut Desk, &Event)),
    /// It judges rightly, and this changes what it keeps, given the desk before.
    Keeps(fn(&mut Desk, &Desk, &Event)),
    /// It answers by this.
    Says(fn(&mut Faulty, &[u8]) -> u8),
}

impl Fault {
    /// Such a gate, not yet opened.
    pub fn gate(&self) -> Faulty {
        Faulty {
            desk: gate::reference(),
            events: 0,
            how: self.how,
        }
    }
}

/// Every sort of faulty gate.
pub fn faults() -> Vec<Fault> {
    let mut faults = seen::faults();
    faults.extend(kept::faults());
    faults.extend(idle::faults());
    faults
}

/// A faulty gate.
pub struct Faulty {
    desk: Lent,
    /// How many events have come before.
    events: usize,
    how: How,
}

impl Faulty {
    /// The right answer, with nothing worked.
    fn judge(&self, event: &[u8]) -> u8 {
        self.desk.clone().event(event)
    }

    /// Judges an event over a changed desk, and works it over the desk kept.
    fn seeing(&mut self, bytes: &[u8], change: fn(&mut Desk, &Event)) -> u8 {
        let (Some(kept), Some(event)) = (self.desk.desk(), Event::read(bytes)) else {
            return self.judge(bytes);
        };
        let mut seen = kept.clone();
        change(&mut seen, &event);
        let answer = Lent::holding(MEMORY, seen).event(bytes);
        if answer == 0 {
            self.desk = Lent::holding(MEMORY, worked(kept, bytes, &event));
        }
        answer
    }

    /// Judges and works an event rightly, and then changes what is kept.
    fn keeping(&mut self, bytes: &[u8], change: fn(&mut Desk, &Desk, &Event)) -> u8 {
        let before = self.desk.clone();
        let answer = self.desk.event(bytes);
        let event = Event::read(bytes).filter(|_| answer == 0);
        if let (Some(before), Some(after), Some(event)) = (before.desk(), self.desk.desk(), event) {
            let mut kept = after.clone();
            change(&mut kept, before, &event);
            self.desk = Lent::holding(MEMORY, kept);
        }
        answer
    }
}

impl Gate for Faulty {
    fn open(&mut self, roster: &[u8]) -> u8 {
        self.desk.open(roster)
    }

    fn event(&mut self, event: &[u8]) -> u8 {
        let answer = match self.how {
            How::Sees(change) => self.seeing(event, change),
            How::Keeps(change) => self.keeping(event, change),
            How::Says(answer) => answer(self, event),
        };
        self.events += 1;
        answer
    }

    fn instrument_position(&self, account: u16, instrument: u16) -> Result<InstrumentPosition, u8> {
        self.desk.instrument_position(account, instrument)
    }

    fn group_position(&self, account: u16, group: u16) -> Result<GroupPosition, u8> {
        self.desk.group_position(account, group)
    }
}

/// The desk with an event worked, whatever the limits.
fn worked(desk: &Desk, bytes: &[u8], event: &Event) -> Desk {
    let mut desk = desk.clone();
    desk.book
        .work(&reference::Event::read(bytes).expect("an event that can be read"));
    if let Event::New { account, .. } = *event {
        desk.trading[account] = true;
    }
    desk
}

/// The order that a NEW enters or a REPLACE raises to, of an account and instrument on the roster.
fn judged(desk: &Desk, event: &Event) -> Option<Order> {
    let order = match *event {
        Event::New {
            side,
            account,
            instrument,
            id,
            quantity,
        } => {
            let total = u64::try_from(quantity).ok()?;
            Order {
                id,
                account,
                instrument,
                side: same(side),
                total,
                filled: 0,
            }
        }
        Event::Replace { id, total } => {
            let total = u64::try_from(total).ok()?;
            let before = desk.book.order(id).filter(|before| total > before.total)?;
            Order { total, ..*before }
        }
        _ => return None,
    };
    let on_roster =
        desk.roster.has_account(order.account) && desk.roster.has_instrument(order.instrument);
    on_roster.then_some(order)
}

fn same(side: plain::Side) -> Side {
    match side {
        plain::Side::Buy => Side::Buy,
        plain::Side::Sell => Side::Sell,
    }
}

/// An id that is not open.
fn free_id(desk: &Desk) -> u64 {
    let free = (1_000..).find(|&id| desk.book.order(id).is_none());
    free.expect("there are more ids than orders")
}
