//! The desk in lent memory: opening it, working events, loading limits, reading positions.

use crate::book::Book;
use crate::event::Event;
use crate::loading;
use crate::numbered::Numbered;
use crate::opening;
use crate::positions;
use crate::questions;
use crate::roster::Roster;

/// A lent memory of this many bytes is long enough.
pub const MEMORY: usize = 65_536;

/// A desk. The book's tables and the marks have the roster's sizes.
#[derive(Clone, PartialEq, Eq, Debug)]
pub struct Desk {
    pub roster: Roster,
    pub book: Book,
    /// The trading mark of each account. Only an accepted NEW sets it.
    pub trading: Numbered<bool>,
}

impl Desk {
    /// Zero balances and no line set, block, open order or trading mark.
    pub fn new(roster: Roster) -> Desk {
        let book = Book::new(&roster);
        let trading = Numbered::of(roster.accounts, false);
        Desk {
            roster,
            book,
            trading,
        }
    }

    /// The book with an event applied.
    pub fn book_with(&self, event: &Event) -> Book {
        let mut book = self.book.clone();
        book.work(event);
        book
    }

    fn work(&mut self, event: &Event) {
        self.book.work(event);
        if let Event::New(new) = event {
            self.trading[new.account] = true;
        }
    }
}

/// S, PCI and PVI of an account and instrument.
#[derive(Clone, Copy, PartialEq, Eq, Debug)]
pub struct InstrumentPosition {
    /// S.
    pub balance: i64,
    /// PCI.
    pub long: i64,
    /// PVI.
    pub short: i64,
}

/// PCC and PVC of an account and group, in ten-thousandths.
#[derive(Clone, Copy, PartialEq, Eq, Debug)]
pub struct GroupPosition {
    /// PCC.
    pub long: i64,
    /// PVC.
    pub short: i64,
}

/// A lent memory: its length, and the desk it holds, if any.
#[derive(Clone, PartialEq, Eq, Debug)]
pub struct Lent {
    length: usize,
    desk: Option<Desk>,
}

impl Lent {
    /// A memory that holds no desk.
    pub fn new(length: usize) -> Lent {
        Lent { length, desk: None }
    }

    /// A memory that holds a desk, sound or not.
    pub fn holding(length: usize, desk: Desk) -> Lent {
        Lent {
            length,
            desk: Some(desk),
        }
    }

    pub fn desk(&self) -> Option<&Desk> {
        self.desk.as_ref()
    }

    /// Opens a desk. The answer is 0, or the number of the refusal, which changes nothing.
    pub fn open(&mut self, roster: &[u8]) -> u8 {
        match opening::judge(self.length, roster) {
            Ok(roster) => {
                self.desk = Some(Desk::new(roster));
                0
            }
            Err(number) => number,
        }
    }

    /// Works an event. The answer is 0, or the number of the refusal, which changes nothing.
    pub fn event(&mut self, event: &[u8]) -> u8 {
        let number = questions::answer(self.reached_desk(), event);
        if number == 0 {
            let desk = self.desk.as_mut().expect("an accepted event has a desk");
            desk.work(&Event::read(event).expect("an accepted event is well formed"));
        }
        number
    }

    /// Works the LIMIT events of a limits file, all or none. The answer is 0, or the number of the
    /// refusal, which changes nothing.
    pub fn load_limits(&mut self, file: &[u8]) -> u8 {
        match loading::judge(self.reached_desk(), file) {
            Ok(events) => {
                let desk = self.desk.as_mut().expect("an accepted load has a desk");
                events.iter().for_each(|event| desk.work(event));
                0
            }
            Err(number) => number,
        }
    }

    /// S, PCI and PVI, refused by 5, 7 and 8 in that order.
    pub fn instrument_position(
        &self,
        account: u16,
        instrument: u16,
    ) -> Result<InstrumentPosition, u8> {
        let desk = self.readable(account)?;
        if !desk.roster.has_instrument(instrument) {
            return Err(8);
        }
        Ok(InstrumentPosition {
            balance: figure(positions::balance(&desk.book, account, instrument)),
            long: figure(positions::potential_long(&desk.book, account, instrument)),
            short: figure(positions::potential_short(&desk.book, account, instrument)),
        })
    }

    /// PCC and PVC, refused by 5, 7 and 8 in that order.
    pub fn group_position(&self, account: u16, group: u16) -> Result<GroupPosition, u8> {
        let desk = self.readable(account)?;
        if !desk.roster.has_group(group) {
            return Err(8);
        }
        Ok(GroupPosition {
            long: figure(positions::group_long(
                &desk.roster,
                &desk.book,
                account,
                group,
            )),
            short: figure(positions::group_short(
                &desk.roster,
                &desk.book,
                account,
                group,
            )),
        })
    }

    /// The desk, if the memory is long enough and holds one.
    fn reached_desk(&self) -> Option<&Desk> {
        self.desk.as_ref().filter(|_| self.length >= MEMORY)
    }

    /// The sound desk whose account may be read, or 5 or 7.
    fn readable(&self, account: u16) -> Result<&Desk, u8> {
        let desk = self
            .reached_desk()
            .filter(|desk| desk.is_sound())
            .ok_or(5)?;
        if desk.roster.has_account(account) {
            Ok(desk)
        } else {
            Err(7)
        }
    }
}

/// A position of a sound desk: at most 32 instruments of weight 1,000,000 and 1,000,000,000
/// contracts each, so within 64 bits.
fn figure(position: i128) -> i64 {
    i64::try_from(position).expect("a sound desk's positions are 64-bit numbers")
}
