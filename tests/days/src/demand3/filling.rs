//! Fillings.

use crate::plain::{Balances, Book, Order};

/// Whether some filling of the book's open orders gives balances that the test holds for.
///
/// A filling fills each open order by any whole number from 0 to its remaining, and balances move
/// as under FILL.
pub fn some_filling(book: &Book, mut test: impl FnMut(&Balances) -> bool) -> bool {
    let mut balances = book.balances.clone();
    some(&book.orders, &mut balances, &mut test)
}

/// Whether every filling of the book's open orders gives balances that the test holds for.
pub fn every_filling(book: &Book, mut test: impl FnMut(&Balances) -> bool) -> bool {
    !some_filling(book, |balances| !test(balances))
}

/// How many fillings the book's open orders have.
pub fn fillings(book: &Book) -> i64 {
    let choices = |order: &Order| order.remaining().saturating_add(1);
    book.orders.iter().map(choices).fold(1, i64::saturating_mul)
}

fn some(
    orders: &[Order],
    balances: &mut Balances,
    test: &mut impl FnMut(&Balances) -> bool,
) -> bool {
    let Some((order, rest)) = orders.split_first() else {
        return test(balances);
    };
    let kept = (order.account, order.instrument);
    let before = balances.get(&kept).copied().unwrap_or(0);
    let found = (0..=order.remaining()).any(|quantity| {
        balances.insert(kept, before + order.moved(quantity));
        some(rest, balances, test)
    });
    balances.insert(kept, before);
    found
}

#[cfg(test)]
mod tests {
    use std::collections::BTreeSet;

    use super::*;
    use crate::plain::{Roster, Side};

    #[test]
    fn every_order_is_filled_from_none_to_all_that_remains() {
        let spec = wire::RosterSpec {
            accounts: 1,
            groups: 1,
            groups_of: vec![1],
            instruments: vec![(1, 1), (1, 1)],
        };
        let mut book = Book::new(Roster::read(&spec.bytes()).expect("a roster of exact length"));
        book.balances.insert((1, 1), -2);
        let order = |id, instrument, side, total, filled| Order {
            id,
            account: 1,
            instrument,
            side,
            total,
            filled,
        };
        book.orders.push(order(1, 1, Side::Buy, 5, 3));
        book.orders.push(order(2, 2, Side::Sell, 1, 0));
        let mut found = Vec::new();
        every_filling(&book, |balances| {
            found.push((balances[&(1, 1)], balances[&(1, 2)]));
            true
        });
        assert_eq!(found.len(), 6);
        assert_eq!(fillings(&book), 6);
        let wanted = [(-2, 0), (-1, 0), (0, 0), (-2, -1), (-1, -1), (0, -1)];
        assert_eq!(
            found.into_iter().collect::<BTreeSet<_>>(),
            BTreeSet::from(wanted)
        );
    }
}
