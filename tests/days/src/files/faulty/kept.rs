//! Loads answered rightly and kept wrongly.

use reference::book::PerAccount;
use reference::fixml::Request;
use reference::{loading, Desk};

use super::{Faulty, How, Keeps};

pub fn faulty() -> Vec<Faulty> {
    let keeps: [(&str, Keeps); 7] = [
        ("keeps nothing", |desk, before, _| *desk = before.clone()),
        ("keeps what came before a refusal", before_a_refusal),
        ("keeps no line that the file does not name", only_named),
        ("keeps the earlier of two", earlier_of_two),
        ("keeps the first account's lines alone", first_account),
        ("keeps no instrument's line", |desk, before, _| {
            desk.book.own_lines = before.book.own_lines.clone();
        }),
        ("marks accounts as trading", marks),
    ];
    let fault = |(name, how)| Faulty {
        name,
        how: How::Keeps(how),
    };
    keeps.map(fault).to_vec()
}

/// The accounts that are accepted by themselves, up to the first that is not.
fn before_a_refusal(desk: &mut Desk, before: &Desk, request: &Request) {
    for account in &request.accounts {
        let (count, accounts) = (1, vec![account.clone()]);
        let Ok(events) = loading::judge_elements(before, &Request { count, accounts }) else {
            return;
        };
        events.iter().for_each(|event| desk.book.work(event));
    }
}

fn only_named(desk: &mut Desk, before: &Desk, request: &Request) {
    if let Ok(events) = loading::judge_elements(before, request) {
        let mut cleared = Desk::new(before.roster.clone());
        events.iter().for_each(|event| cleared.book.work(event));
        desk.book.own_lines = cleared.book.own_lines;
        desk.book.default_lines = cleared.book.default_lines;
        desk.book.group_lines = cleared.book.group_lines;
    }
}

fn earlier_of_two(desk: &mut Desk, before: &Desk, request: &Request) {
    if let Ok(events) = loading::judge_elements(before, request) {
        events.iter().rev().for_each(|event| desk.book.work(event));
    }
}

fn first_account(desk: &mut Desk, before: &Desk, request: &Request) {
    fn rows<T: Clone>(to: &mut PerAccount<T>, from: &PerAccount<T>, account: u16) {
        to[account] = from[account].clone();
    }
    let first = request.accounts.first().map(|account| account.number);
    for account in (1..=desk.roster.accounts).filter(|&each| Some(i64::from(each)) != first) {
        rows(&mut desk.book.own_lines, &before.book.own_lines, account);
        rows(
            &mut desk.book.default_lines,
            &before.book.default_lines,
            account,
        );
        rows(
            &mut desk.book.group_lines,
            &before.book.group_lines,
            account,
        );
    }
}

fn marks(desk: &mut Desk, before: &Desk, request: &Request) {
    for event in loading::judge_elements(before, request).unwrap_or_default() {
        if let Some(account) = event.account() {
            desk.trading[account] = true;
        }
    }
}
