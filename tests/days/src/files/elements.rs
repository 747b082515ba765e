//! The elements of files that a desk accepts.

use wire::fixml::{account, contract, file, group, instrument, Element};
use wire::{limit, limit_level, Fields};

use super::{value, LIMITS, NUMBERS, TEXTS};
use crate::plain::Roster;
use crate::random::Random;

const LARGEST_LIMIT: u64 = 1_000_000_000;

/// The elements of a file that a sound desk with this roster accepts: few or many, with limits or
/// not, in any order, some of them more than once, numbers with leading zeros and texts of any
/// length.
pub fn elements(random: &mut Random, roster: &Roster) -> Element {
    let accounts = some_of(random, 1..=roster.accounts);
    let accounts = accounts.into_iter().map(|number| {
        let groups = some_of(random, 1..=roster.groups);
        let groups = groups
            .into_iter()
            .map(|number| group_of(random, roster, number));
        account(number.into(), groups.collect())
    });
    let mut file = file(accounts.collect());
    dress(random, &mut file);
    file
}

fn group_of(random: &mut Random, roster: &Roster, number: u16) -> Element {
    let own = (1..)
        .zip(roster.groups_of())
        .filter(|(_, group)| *group == number);
    let contracts = some_of(random, own.map(|(contract, _)| contract));
    let contracts = contracts
        .into_iter()
        .map(|number| contract_of(random, roster, number));
    let contracts = contracts.collect();
    group(number.into(), limits(random), contracts)
}

fn contract_of(random: &mut Random, roster: &Roster, number: u16) -> Element {
    let own = (1..)
        .zip(roster.contracts_of())
        .filter(|(_, contract)| *contract == number);
    let instruments = some_of(random, own.map(|(instrument, _)| instrument));
    let instruments = instruments
        .into_iter()
        .map(|number| instrument(number.into(), limits(random)));
    let instruments = instruments.collect();
    contract(number.into(), limits(random), instruments)
}

/// Up to four of these numbers, seldom more; a number may come again.
fn some_of(random: &mut Random, numbers: impl Iterator<Item = u16>) -> Vec<u16> {
    let numbers: Vec<u16> = numbers.collect();
    let count = match numbers.len() {
        0 => 0,
        _ => random.one_of(&[0, 1, 1, 1, 1, 2, 2, 2, 3, 4, 10]),
    };
    (0..count).map(|_| random.one_of(&numbers)).collect()
}

/// Figures in range, or none.
fn limits<const N: usize>(random: &mut Random) -> Option<[u64; N]> {
    let any = random.number() % (LARGEST_LIMIT + 1);
    let small = random.number() % 300;
    let figures = [
        0,
        1,
        small,
        small,
        small,
        any,
        LARGEST_LIMIT - 1,
        LARGEST_LIMIT,
    ];
    let mut line = [0; N];
    line.fill_with(|| random.one_of(&figures));
    random.chance(70).then_some(line)
}

/// Gives every text some bytes, and some numbers leading zeros.
fn dress(random: &mut Random, element: &mut Element) {
    for (name, value) in &mut element.attributes {
        if TEXTS.contains(name) {
            *value = text(random);
        } else if random.chance(10) {
            let zeros = random.below(11 - value.len());
            value.splice(..0, vec![b'0'; zeros]);
        }
    }
    for child in &mut element.children {
        dress(random, child);
    }
}

/// Up to 100 bytes: letters, or any that a text may hold.
fn text(random: &mut Random) -> Vec<u8> {
    let any = random.below(101);
    let length = random.one_of(&[0, 0, 1, 2, 3, 6, 99, 100, any]);
    let letters = random.chance(70);
    let byte = |random: &mut Random| loop {
        let byte = match letters {
            true => random.one_of(b"ABCMFUTx190 "),
            false => random.number() as u8,
        };
        if !b"\"&<>".contains(&byte) {
            return byte;
        }
    };
    (0..length).map(|_| byte(random)).collect()
}

/// The LIMIT events of such a file, in file order.
pub fn events(file: &Element) -> Vec<Fields> {
    let mut events = Vec::new();
    for request in &file.children {
        for account in &request.children {
            let number = number(account, &NUMBERS);
            for element in &account.children {
                push_events(&mut events, number, element);
            }
        }
    }
    events
}

/// The event of an element with limits, and those of the elements in it.
fn push_events(events: &mut Vec<Fields>, account: u64, element: &Element) {
    let figure = |name: &str| number(element, &[name]) as i64;
    let four = || ["MaxBidQty", "MaxOfrQty", "LongLmt", "ShortLmt"].map(figure);
    if value(element, &LIMITS).is_some() {
        let (level, figures) = match element.name {
            "EqvIxmLmt" => (
                limit_level::GROUP,
                [figure("LongLmt"), figure("ShortLmt"), 0, 0],
            ),
            "ContrtLmt" => (limit_level::CONTRACT, four()),
            _ => (limit_level::INSTRUMENT, four()),
        };
        let item = number(element, &NUMBERS);
        events.push(limit(level, account as u16, item as u16, figures));
    }
    for child in &element.children {
        push_events(events, account, child);
    }
}

/// The number in the first attribute with one of these names.
fn number(element: &Element, names: &[&str]) -> u64 {
    let digits = value(element, names).expect("an element has its attributes");
    let digits = std::str::from_utf8(digits).expect("digits");
    digits.parse().expect("a number")
}
