//! Loading a limits file: questions 5, 25 and 26 of the whole file, then 7, 8 and 9 element by
//! element.

use crate::book::Line;
use crate::desk::Desk;
use crate::event::{Event, Item};
use crate::fixml::{self, Contract, Group, Request};
use crate::questions;
use crate::roster::Roster;

/// The LIMIT events that an accepted load works, in file order, or the number of the first question
/// answered no. Where the lent memory is too short there is no desk.
pub fn judge(desk: Option<&Desk>, file: &[u8]) -> Result<Vec<Event>, u8> {
    // 5. Is the lent memory long enough, and does it hold a sound desk?
    let desk = desk.filter(|desk| desk.is_sound()).ok_or(5)?;
    // 25. Do the bytes follow the layout?
    let request = fixml::read(file).ok_or(25)?;
    judge_elements(desk, &request)
}

/// The same of a file that follows the layout, on a sound desk.
pub fn judge_elements(desk: &Desk, request: &Request) -> Result<Vec<Event>, u8> {
    // 26. Is every count that of the children, and does every contract and instrument of the roster
    // stand under its own group or contract?
    if !counts_are_right(request) || !parents_are_right(&desk.roster, request) {
        return Err(26);
    }
    let mut elements = Elements::of(desk);
    elements.ask(request)?;
    Ok(elements.events)
}

fn counts_are_right(request: &Request) -> bool {
    fn right<T>(count: i64, children: &[T]) -> bool {
        usize::try_from(count) == Ok(children.len())
    }
    let contracts_are_right = |group: &Group| {
        let mut contracts = group.contracts.iter();
        right(group.count, &group.contracts)
            && contracts.all(|contract| right(contract.count, &contract.instruments))
    };
    let mut accounts = request.accounts.iter();
    right(request.count, &request.accounts)
        && accounts.all(|account| {
            let mut groups = account.groups.iter();
            right(account.count, &account.groups) && groups.all(contracts_are_right)
        })
}

/// Contracts and instruments off the roster are left to question 8.
fn parents_are_right(roster: &Roster, request: &Request) -> bool {
    let mut groups = request.accounts.iter().flat_map(|account| &account.groups);
    groups.all(|group| {
        let mut contracts = group.contracts.iter();
        contracts.all(|contract| {
            let mut instruments = contract.instruments.iter();
            is_group_of(roster, group.number, contract.number)
                && instruments.all(|each| is_contract_of(roster, contract.number, each.number))
        })
    })
}

fn is_group_of(roster: &Roster, group: i64, contract: i64) -> bool {
    known(contract, |number| roster.has_contract(number)).is_none_or(|contract| {
        let own = roster.group_of_contract[usize::from(contract) - 1];
        group == i64::from(own)
    })
}

fn is_contract_of(roster: &Roster, contract: i64, instrument: i64) -> bool {
    known(instrument, |number| roster.has_instrument(number))
        .is_none_or(|instrument| contract == i64::from(roster.contract_of_instrument(instrument)))
}

/// A number of the file, if the roster has it.
fn known(number: i64, has: impl Fn(u16) -> bool) -> Option<u16> {
    u16::try_from(number).ok().filter(|&number| has(number))
}

/// The elements of a file that were asked, and the LIMIT events of those with limits.
struct Elements<'a> {
    desk: &'a Desk,
    events: Vec<Event>,
}

impl Elements<'_> {
    fn of(desk: &Desk) -> Elements<'_> {
        let events = Vec::new();
        Elements { desk, events }
    }

    /// In the order in which the elements begin: 7 of an account, 8 of a group, contract or
    /// instrument, and 9 where it has limits.
    fn ask(&mut self, request: &Request) -> Result<(), u8> {
        let roster = &self.desk.roster;
        for element in &request.accounts {
            let account = known(element.number, |number| roster.has_account(number)).ok_or(7)?;
            for element in &element.groups {
                let group = known(element.number, |number| roster.has_group(number)).ok_or(8)?;
                if let Some(line) = element.line {
                    self.ask_limits(account, Item::Group(group), vec![line.lcc, line.lvc])?;
                }
                for contract in &element.contracts {
                    self.ask_contract(account, contract)?;
                }
            }
        }
        Ok(())
    }

    /// A contract and its instruments.
    fn ask_contract(&mut self, account: u16, element: &Contract) -> Result<(), u8> {
        let roster = &self.desk.roster;
        let contract = known(element.number, |number| roster.has_contract(number)).ok_or(8)?;
        if let Some(line) = element.line {
            self.ask_limits(account, Item::Contract(contract), figures(line))?;
        }
        for element in &element.instruments {
            let instrument =
                known(element.number, |number| roster.has_instrument(number)).ok_or(8)?;
            if let Some(line) = element.line {
                self.ask_limits(account, Item::Instrument(instrument), figures(line))?;
            }
        }
        Ok(())
    }

    /// Asks of an element's limits what their LIMIT event is asked, and keeps the event.
    fn ask_limits(&mut self, account: u16, item: Item, figures: Vec<i64>) -> Result<(), u8> {
        let event = Event::Limit {
            account,
            item,
            figures,
        };
        match questions::first_no(self.desk, &event) {
            0 => self.events.push(event),
            number => return Err(number),
        }
        Ok(())
    }
}

/// In the order of an event's figures.
fn figures(line: Line) -> Vec<i64> {
    vec![line.tci, line.tvi, line.lci, line.lvi]
}
