//! Elements taken wrongly.

use reference::book::{GroupLine, Line};
use reference::fixml::{Contract, Group, Instrument, Request};
use reference::Desk;

use super::{Faulty, How, Takes};

pub fn faulty() -> Vec<Faulty> {
    let takes: [(&str, Takes); 15] = [
        ("takes figures in the file's order", figures_as_in_the_file),
        ("exchanges bid and offer", sizes_exchanged),
        ("exchanges a group's long and short", group_line_exchanged),
        ("takes numbers in 16 bits", numbers_in_16_bits),
        ("takes numbers in 32 bits", numbers_in_32_bits),
        ("takes figures in 32 bits", figures_in_32_bits),
        ("takes a figure too large as the largest", into_range),
        ("takes counts in 32 bits", counts_in_32_bits),
        ("takes counts that are too low", low_counts),
        ("takes counts that are too high", high_counts),
        ("passes over another group's contracts", other_contracts),
        (
            "passes over another contract's instruments",
            other_instruments,
        ),
        ("empties groups off the roster", unknown_groups),
        ("empties contracts off the roster", unknown_contracts),
        ("asks no instrument without limits", unknown_without_limits),
    ];
    let fault = |(name, how)| Faulty {
        name,
        how: How::Takes(how),
    };
    takes.map(fault).to_vec()
}

fn groups(request: &mut Request) -> impl Iterator<Item = &mut Group> {
    let accounts = request.accounts.iter_mut();
    accounts.flat_map(|account| &mut account.groups)
}

fn contracts(request: &mut Request) -> impl Iterator<Item = &mut Contract> {
    groups(request).flat_map(|group| &mut group.contracts)
}

fn group_lines(request: &mut Request) -> impl Iterator<Item = &mut GroupLine> {
    groups(request).filter_map(|group| group.line.as_mut())
}

/// The lines of contracts and instruments.
fn lines(request: &mut Request) -> impl Iterator<Item = &mut Line> {
    contracts(request).flat_map(|contract| {
        let own = contract.instruments.iter_mut();
        let own = own.filter_map(|instrument| instrument.line.as_mut());
        own.chain(contract.line.as_mut())
    })
}

fn figures_as_in_the_file(_: &Desk, request: &mut Request) {
    for line in lines(request) {
        *line = Line {
            tci: line.lci,
            tvi: line.lvi,
            lci: line.tci,
            lvi: line.tvi,
        };
    }
}

fn sizes_exchanged(_: &Desk, request: &mut Request) {
    lines(request).for_each(|line| std::mem::swap(&mut line.tci, &mut line.tvi));
}

fn group_line_exchanged(_: &Desk, request: &mut Request) {
    group_lines(request).for_each(|line| std::mem::swap(&mut line.lcc, &mut line.lvc));
}

fn each_figure(request: &mut Request, change: fn(&mut i64)) {
    for line in group_lines(request) {
        change(&mut line.lcc);
        change(&mut line.lvc);
    }
    for line in lines(request) {
        let figures = [&mut line.tci, &mut line.tvi, &mut line.lci, &mut line.lvi];
        figures.into_iter().for_each(change);
    }
}

fn figures_in_32_bits(_: &Desk, request: &mut Request) {
    each_figure(request, |figure| *figure &= 0xffff_ffff);
}

pub fn into_range(_: &Desk, request: &mut Request) {
    each_figure(request, |figure| *figure = (*figure).min(1_000_000_000));
}

fn each_number(request: &mut Request, change: fn(&mut i64)) {
    for account in &mut request.accounts {
        change(&mut account.number);
    }
    for group in groups(request) {
        change(&mut group.number);
    }
    for contract in contracts(request) {
        change(&mut contract.number);
        for instrument in &mut contract.instruments {
            change(&mut instrument.number);
        }
    }
}

fn numbers_in_16_bits(_: &Desk, request: &mut Request) {
    each_number(request, |number| *number &= 0xffff);
}

fn numbers_in_32_bits(_: &Desk, request: &mut Request) {
    each_number(request, |number| *number &= 0xffff_ffff);
}

/// Changes every count, given how many children there are.
fn each_count(request: &mut Request, change: fn(i64, i64) -> i64) {
    request.count = change(request.count, request.accounts.len() as i64);
    for account in &mut request.accounts {
        account.count = change(account.count, account.groups.len() as i64);
    }
    for group in groups(request) {
        group.count = change(group.count, group.contracts.len() as i64);
    }
    for contract in contracts(request) {
        contract.count = change(contract.count, contract.instruments.len() as i64);
    }
}

fn counts_in_32_bits(_: &Desk, request: &mut Request) {
    each_count(request, |count, _| count & 0xffff_ffff);
}

fn low_counts(_: &Desk, request: &mut Request) {
    each_count(request, i64::max);
}

fn high_counts(_: &Desk, request: &mut Request) {
    each_count(request, i64::min);
}

/// Leaves of a contract's instruments only some, and counts the others no longer.
fn keep_instruments(contract: &mut Contract, keep: impl Fn(&Instrument) -> bool) {
    let before = contract.instruments.len();
    contract.instruments.retain(keep);
    contract.count -= (before - contract.instruments.len()) as i64;
}

/// Leaves of a group's contracts only some, and counts the others no longer.
fn keep_contracts(group: &mut Group, keep: impl Fn(&Contract) -> bool) {
    let before = group.contracts.len();
    group.contracts.retain(keep);
    group.count -= (before - group.contracts.len()) as i64;
}

/// The number that the roster has in its list for this one, if it is on the roster.
fn listed(list: &[u16], number: i64) -> Option<i64> {
    let place = usize::try_from(number).ok()?.checked_sub(1)?;
    list.get(place).map(|&listed| i64::from(listed))
}

fn other_contracts(desk: &Desk, request: &mut Request) {
    let of = &desk.roster.group_of_contract;
    for group in groups(request) {
        let number = group.number;
        keep_contracts(group, |contract| {
            listed(of, contract.number).is_none_or(|own| own == number)
        });
    }
}

fn other_instruments(desk: &Desk, request: &mut Request) {
    let of = &desk.roster.contract_of;
    for contract in contracts(request) {
        let number = contract.number;
        keep_instruments(contract, |instrument| {
            listed(of, instrument.number).is_none_or(|own| own == number)
        });
    }
}

fn unknown_groups(desk: &Desk, request: &mut Request) {
    let known = 1..=i64::from(desk.roster.groups);
    for group in groups(request).filter(|group| !known.contains(&group.number)) {
        keep_contracts(group, |_| false);
    }
}

fn unknown_contracts(desk: &Desk, request: &mut Request) {
    let known = 1..=i64::from(desk.roster.contracts());
    for contract in contracts(request).filter(|contract| !known.contains(&contract.number)) {
        keep_instruments(contract, |_| false);
    }
}

fn unknown_without_limits(desk: &Desk, request: &mut Request) {
    let of = &desk.roster.contract_of;
    for contract in contracts(request) {
        keep_instruments(contract, |instrument| {
            instrument.line.is_some() || listed(of, instrument.number).is_some()
        });
    }
}
