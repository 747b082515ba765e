//! Wrong counts, parents, numbers and figures: 26, 7, 8 and 9.

use wire::fixml::{contract, instrument, Element};

use super::{answered, How, Spoiling};
use crate::files::{pick, set, value, COUNTS, LIMITS, NUMBERS};
use crate::plain::Roster;
use crate::random::Random;

const LARGEST_LIMIT: u64 = 1_000_000_000;
const LARGEST_NUMBER: u64 = 9_999_999_999;

/// 26.
pub fn of_the_tree() -> Vec<Spoiling> {
    answered(
        26,
        &[
            ("a count is one too high", How::Elements(count_one_too_high)),
            ("a count is one too low", How::Elements(count_one_too_low)),
            ("a count is far too high", How::Elements(count_far_too_high)),
            (
                "a contract of another group",
                How::Elements(contract_of_another_group),
            ),
            (
                "a contract under no group of the roster",
                How::Elements(contract_under_no_group),
            ),
            (
                "an instrument of another contract",
                How::Elements(instrument_of_another_contract),
            ),
            (
                "an instrument under no contract of the roster",
                How::Elements(instrument_under_no_contract),
            ),
        ],
    )
}

/// 7, 8 and 9.
pub fn of_an_element() -> Vec<Spoiling> {
    let accounts = answered(7, &[("an unknown account", How::Elements(unknown_account))]);
    let items = answered(
        8,
        &[
            ("an unknown group", How::Elements(unknown_group)),
            ("an unknown contract", How::Elements(unknown_contract)),
            ("an unknown instrument", How::Elements(unknown_instrument)),
        ],
    );
    let figures = answered(
        9,
        &[("a figure past its range", How::Elements(figure_past))],
    );
    [accounts, items, figures].concat()
}

fn has_count(element: &Element) -> bool {
    value(element, &COUNTS).is_some()
}

fn count_one_too_high(random: &mut Random, _: &Roster, file: &mut Element) -> Option<()> {
    let element = pick(random, file, has_count)?;
    set(element, &COUNTS, element.children.len() + 1)
}

fn count_one_too_low(random: &mut Random, _: &Roster, file: &mut Element) -> Option<()> {
    let element = pick(random, file, |element| {
        has_count(element) && !element.children.is_empty()
    })?;
    set(element, &COUNTS, element.children.len() - 1)
}

/// Often by so much that the low bits are those of the right count.
fn count_far_too_high(random: &mut Random, _: &Roster, file: &mut Element) -> Option<()> {
    let element = pick(random, file, has_count)?;
    let more = random.one_of(&[256, 65_536, 1 << 31, 1 << 32, 1 << 33, 9_000_000_000]);
    set(element, &COUNTS, element.children.len() as u64 + more)
}

/// Puts a child among the others, and counts it.
fn put_child(random: &mut Random, parent: &mut Element, child: Element) -> Option<()> {
    let place = random.below(parent.children.len() + 1);
    parent.children.insert(place, child);
    set(parent, &COUNTS, parent.children.len())
}

fn contract_of_another_group(
    random: &mut Random,
    roster: &Roster,
    file: &mut Element,
) -> Option<()> {
    let group = pick(random, file, |element| element.name == "EqvIxmLmt")?;
    let others = (1..)
        .zip(roster.groups_of())
        .filter(|(_, of)| !is_number(group, *of));
    let others: Vec<u64> = others.map(|(contract, _)| contract).collect();
    let number = one_of(random, &others)?;
    put_child(random, group, contract(number, None, Vec::new()))
}

fn contract_under_no_group(random: &mut Random, roster: &Roster, file: &mut Element) -> Option<()> {
    let group = pick(random, file, |element| {
        element.name == "EqvIxmLmt" && !element.children.is_empty()
    })?;
    set(group, &NUMBERS, unknown(random, roster.groups))
}

fn instrument_of_another_contract(
    random: &mut Random,
    roster: &Roster,
    file: &mut Element,
) -> Option<()> {
    let contract = pick(random, file, |element| element.name == "ContrtLmt")?;
    let others = (1..)
        .zip(roster.contracts_of())
        .filter(|(_, of)| !is_number(contract, *of));
    let others: Vec<u64> = others.map(|(instrument, _)| instrument).collect();
    let number = one_of(random, &others)?;
    put_child(random, contract, instrument(number, None))
}

fn instrument_under_no_contract(
    random: &mut Random,
    roster: &Roster,
    file: &mut Element,
) -> Option<()> {
    let contract = pick(random, file, |element| {
        element.name == "ContrtLmt" && !element.children.is_empty()
    })?;
    set(contract, &NUMBERS, unknown(random, roster.contracts()))
}

fn unknown_account(random: &mut Random, roster: &Roster, file: &mut Element) -> Option<()> {
    unknown_number(random, "AcctLmt", roster.accounts, file)
}

/// Without its contracts, as below a contract without its instruments.
fn unknown_group(random: &mut Random, roster: &Roster, file: &mut Element) -> Option<()> {
    unknown_number(random, "EqvIxmLmt", roster.groups, file)
}

fn unknown_contract(random: &mut Random, roster: &Roster, file: &mut Element) -> Option<()> {
    unknown_number(random, "ContrtLmt", roster.contracts(), file)
}

fn unknown_instrument(random: &mut Random, roster: &Roster, file: &mut Element) -> Option<()> {
    unknown_number(random, "IxmLmt", roster.instruments(), file)
}

/// Gives an element of this name a number off the roster. An account keeps its children, which are
/// under any account.
fn unknown_number(random: &mut Random, name: &str, most: u16, file: &mut Element) -> Option<()> {
    let element = pick(random, file, |element| element.name == name)?;
    if has_count(element) && name != "AcctLmt" {
        element.children.clear();
        set(element, &COUNTS, 0)?;
    }
    set(element, &NUMBERS, unknown(random, most))
}

fn figure_past(random: &mut Random, _: &Roster, file: &mut Element) -> Option<()> {
    let element = pick(random, file, |element| value(element, &LIMITS).is_some())?;
    let limits = element.attributes.iter().map(|(name, _)| *name);
    let limits: Vec<&str> = limits.filter(|name| LIMITS.contains(name)).collect();
    let any = LARGEST_LIMIT + 1 + random.number() % (LARGEST_NUMBER - LARGEST_LIMIT);
    let past = [
        LARGEST_LIMIT + 1,
        1 << 31,
        1 << 32,
        (1 << 32) + LARGEST_LIMIT,
        LARGEST_NUMBER,
        any,
    ];
    set(element, &[random.one_of(&limits)], random.one_of(&past))
}

/// A number past the most that the roster has, or 0; often with the low bits of one that it has.
fn unknown(random: &mut Random, most: u16) -> u64 {
    let most = u64::from(most);
    let known = 1 + random.number() % most;
    let any = most + 1 + random.number() % (LARGEST_NUMBER - most);
    let numbers = [
        0,
        most + 1,
        known + 256,
        known + 65_536,
        known + (1 << 32),
        LARGEST_NUMBER,
        any,
    ];
    random.one_of(&numbers)
}

/// The number of an element of the file, which may have leading zeros, is this one.
fn is_number(element: &Element, number: u16) -> bool {
    let digits = value(element, &NUMBERS).unwrap_or_default();
    let digits = String::from_utf8_lossy(digits);
    digits.parse() == Ok(number)
}

fn one_of(random: &mut Random, choices: &[u64]) -> Option<u64> {
    match choices {
        [] => None,
        _ => Some(random.one_of(choices)),
    }
}
