//! Questions asked in another order.

use reference::fixml::Request;
use reference::loading::judge_elements;
use reference::{Desk, Event};

use super::taken::into_range;
use super::{Asks, Faulty, How};

pub fn faulty() -> Vec<Faulty> {
    let asks: [(&str, Asks); 3] = [
        ("asks every 9 before any 7 or 8", figures_first),
        ("asks every 7 and 8 before any 9", figures_last),
        ("asks all of an account before the next", account_by_account),
    ];
    let fault = |(name, how)| Faulty {
        name,
        how: How::Asks(how),
    };
    asks.map(fault).to_vec()
}

/// The elements with every figure in range.
fn in_range(desk: &Desk, request: &Request) -> Request {
    let mut request = request.clone();
    into_range(desk, &mut request);
    request
}

fn figures_first(desk: &Desk, request: &Request) -> Result<Vec<Event>, u8> {
    match judge_elements(desk, request) {
        Err(7 | 8) if in_range(desk, request) != *request => Err(9),
        answer => answer,
    }
}

fn figures_last(desk: &Desk, request: &Request) -> Result<Vec<Event>, u8> {
    judge_elements(desk, &in_range(desk, request))?;
    judge_elements(desk, request)
}

fn account_by_account(desk: &Desk, request: &Request) -> Result<Vec<Event>, u8> {
    for account in &request.accounts {
        let accounts = vec![account.clone()];
        judge_elements(desk, &Request { count: 1, accounts })?;
    }
    judge_elements(desk, request)
}
