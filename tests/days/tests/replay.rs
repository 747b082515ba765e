//! Two gates side by side: the replay finds no difference where there is none, and finds any.

use days::faults::faults;
use days::gate::{self, Gate, GroupPosition, InstrumentPosition};
use days::kinds::{kind, kinds};
use days::replay::first_difference;
use reference::{Lent, MEMORY};

#[test]
fn the_reference_does_not_differ_from_itself() {
    for kind in kinds() {
        for day in kind.days().take(3) {
            let difference = first_difference(&day, &mut gate::reference(), &mut gate::reference());
            assert_eq!(difference, None, "{}", kind.name);
        }
    }
}

#[test]
fn every_faulty_gate_differs_from_the_reference() {
    for fault in faults() {
        let differs = kind("small")
            .days()
            .any(|day| first_difference(&day, &mut gate::reference(), &mut fault.gate()).is_some());
        assert!(differs, "{}", fault.name);
    }
}

#[test]
fn openings_differ() {
    let day = kind("traffic").day(1);
    let difference = first_difference(&day, &mut gate::reference(), &mut Lent::new(MEMORY - 1));
    let difference = difference.expect("a short memory refuses the opening");
    assert_eq!((&*difference.left, &*difference.right), ("0", "1"));
}

#[test]
fn answers_differ() {
    let refuses_all = faults()
        .into_iter()
        .find(|fault| fault.name == "refuses all");
    let mut refuses_all = refuses_all.expect("a gate that refuses all").gate();
    let day = kind("small").day(1);
    let difference = first_difference(&day, &mut gate::reference(), &mut refuses_all);
    let difference = difference.expect("the first LIMIT is accepted, and refused");
    assert_eq!(difference.what, "event 1");
    assert_eq!((&*difference.left, &*difference.right), ("0", "24"));
}

/// The reference, but one figure of one position is read as one more once an order is open there.
struct Misread {
    lent: Lent,
    /// Which of S, PCI, PVI, PCC and PVC.
    figure: usize,
    account: u16,
    /// The instrument or the group.
    item: u16,
}

impl Misread {
    /// One if this figure is to be misread, else 0.
    fn more(&self, figure: usize, account: u16, item: u16) -> i64 {
        let here = (figure, account, item) == (self.figure, self.account, self.item);
        let traded = self
            .lent
            .desk()
            .is_some_and(|desk| desk.roster.has_account(account) && desk.trading[account]);
        i64::from(here && traded)
    }
}

impl Gate for Misread {
    fn open(&mut self, roster: &[u8]) -> u8 {
        self.lent.open(roster)
    }

    fn event(&mut self, event: &[u8]) -> u8 {
        self.lent.event(event)
    }

    fn instrument_position(&self, account: u16, instrument: u16) -> Result<InstrumentPosition, u8> {
        let position = self.lent.instrument_position(account, instrument)?;
        Ok(InstrumentPosition {
            balance: position.balance + self.more(0, account, instrument),
            long: position.long + self.more(1, account, instrument),
            short: position.short + self.more(2, account, instrument),
        })
    }

    fn group_position(&self, account: u16, group: u16) -> Result<GroupPosition, u8> {
        let position = self.lent.group_position(account, group)?;
        Ok(GroupPosition {
            long: position.long + self.more(3, account, group),
            short: position.short + self.more(4, account, group),
        })
    }
}

#[test]
fn a_position_misread_is_found_on_every_size_of_roster() {
    for (name, account, instrument, group) in [
        ("smallest roster", 1, 1, 1),
        ("largest roster", 16, 32, 4),
        ("balances", 4, 4, 2),
    ] {
        for figure in 0..5 {
            let item = if figure < 3 { instrument } else { group };
            let lent = gate::reference();
            let mut misread = Misread {
                lent,
                figure,
                account,
                item,
            };
            let day = kind(name).day(1);
            let difference = first_difference(&day, &mut gate::reference(), &mut misread);
            let difference = difference.unwrap_or_else(|| panic!("{name}, figure {figure}"));
            let place = if figure < 3 { "instrument" } else { "group" };
            let what = format!("{place} {item} of account {account} after event ");
            assert!(difference.what.starts_with(&what), "{}", difference.what);
        }
    }
}
