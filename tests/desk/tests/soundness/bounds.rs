//! What each field of a sound desk is set to, and which clauses it is under.

use days::random::Random;
use desk::layout::{Clause, Detail, Field, Part, Words};
use reference::{positions, Side};

const LARGEST: i64 = 1_000_000_000;
const LARGEST_WEIGHT: i64 = 1_000_000;
const LARGEST_TOTAL: u64 = 1_000_000;

/// The clauses that a field's value can keep or break by itself.
pub fn clauses(words: Words, field: Field) -> Vec<Clause> {
    match field {
        Field::Kind => vec![Clause::Kind],
        Field::Accounts | Field::Groups | Field::Contracts | Field::Instruments => {
            vec![Clause::Sizes]
        }
        Field::GroupOf(_) => vec![Clause::GroupOfContract],
        Field::ContractOf(_) => vec![Clause::ContractOfInstrument],
        Field::Weight(_) => vec![Clause::Weight],
        Field::Count => vec![Clause::Count],
        Field::First => vec![Clause::First],
        Field::Mark(_) => vec![Clause::Trading],
        Field::Block(_) | Field::Set(_) => Vec::new(),
        Field::Balance { .. } => vec![Clause::Long, Clause::Short],
        Field::Figure(line, _) => vec![words.line_clause(line)],
        Field::Order(_, Part::Id) => vec![Clause::IdsNonZero, Clause::IdsDiffer, Clause::IdsAscend],
        Field::Order(_, Part::Detail) => vec![
            Clause::OrderAccount,
            Clause::OrderInstrument,
            Clause::OrderTotal,
            Clause::Remaining,
        ],
    }
}

/// What a field is set to: small numbers, numbers near the present one and the field's bounds,
/// numbers whose low bytes alone are the present one, the largest, and any.
pub fn values(words: Words, field: Field, random: &mut Random) -> Vec<u64> {
    let now = words.get(field);
    let mut values = vec![0, 1, 2, u64::MAX, 1 << 63, (1 << 63) - 1, random.number()];
    values.extend(near(now));
    values.extend([8, 16, 32, 48].map(|bits| now.wrapping_add(1 << bits)));
    values.push(now ^ 1 << random.below(64));
    values.extend(bounds(words, field).into_iter().flat_map(near));
    values
}

/// A number, one less and one more.
fn near(number: u64) -> [u64; 3] {
    [number.wrapping_sub(1), number, number.wrapping_add(1)]
}

/// The last values in range, and the numbers that the field is compared with.
fn bounds(words: Words, field: Field) -> Vec<u64> {
    match field {
        Field::Kind | Field::Mark(_) | Field::Block(_) | Field::Set(_) => vec![1],
        Field::Accounts => vec![16],
        Field::Groups => vec![4],
        Field::Contracts => vec![8],
        Field::Instruments => vec![32],
        Field::GroupOf(_) => vec![words.get(Field::Groups)],
        Field::ContractOf(_) => vec![words.get(Field::Contracts)],
        Field::Weight(_) => vec![LARGEST_WEIGHT as u64, -LARGEST_WEIGHT as u64],
        Field::Count | Field::First => vec![256],
        Field::Balance {
            account,
            instrument,
        } => balances(words, account, instrument),
        Field::Figure(..) => vec![LARGEST as u64],
        Field::Order(record, part) => order_bounds(words, record, part),
    }
}

/// The balances that leave S + B or −S + V, or S and −S alone, at its most.
fn balances(words: Words, account: u16, instrument: u16) -> Vec<u64> {
    let Some(desk) = words.desk().filter(|desk| desk.is_sound()) else {
        return Vec::new();
    };
    let buys = positions::open_buys(&desk.book, account, instrument) as i64;
    let sells = positions::open_sells(&desk.book, account, instrument) as i64;
    let balances = [LARGEST - buys, sells - LARGEST, LARGEST, -LARGEST];
    balances.map(|balance| balance as u64).to_vec()
}

fn order_bounds(words: Words, record: usize, part: Part) -> Vec<u64> {
    let other = |record, part| words.get(Field::Order(record, part));
    match part {
        Part::Id => {
            let records = words.records().unwrap_or(record..record + 1);
            let before = record.saturating_sub(1).max(records.start);
            let neighbours = [before, (record + 1).min(records.end - 1)];
            neighbours.map(|record| other(record, Part::Id)).to_vec()
        }
        Part::Detail => detail_bounds(words, words.detail(record)),
    }
}

/// The other side, the last account and instrument and one past each, the largest total and one past
/// it by what is filled and by what remains, and an order with nothing left of it.
fn detail_bounds(words: Words, now: Detail) -> Vec<u64> {
    let side = match now.side {
        Side::Buy => Side::Sell,
        Side::Sell => Side::Buy,
    };
    let account = |account| Detail { account, ..now };
    let instrument = |instrument| Detail { instrument, ..now };
    let filled = |filled| Detail { filled, ..now };
    let remaining = |remaining| Detail { remaining, ..now };
    let accounts = words.get(Field::Accounts) as u16;
    let instruments = words.get(Field::Instruments) as u16;
    let bounds = [
        Detail { side, ..now },
        account(accounts),
        account(accounts.wrapping_add(1)),
        instrument(instruments),
        instrument(instruments.wrapping_add(1)),
        filled(LARGEST_TOTAL.saturating_sub(now.remaining)),
        filled((LARGEST_TOTAL + 1).saturating_sub(now.remaining)),
        remaining(LARGEST_TOTAL.saturating_sub(now.filled)),
        remaining((LARGEST_TOTAL + 1).saturating_sub(now.filled)),
        Detail {
            filled: now.total(),
            remaining: 0,
            ..now
        },
    ];
    bounds.map(Detail::word).to_vec()
}
