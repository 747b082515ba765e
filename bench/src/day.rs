//! A day: a roster and the events of a trading desk that sees the gate's answers.

use wire::{
    balance, block, block_level, cancel, fill, kind, limit, limit_level, new, replace, Fields, BUY,
    EVENT_LENGTH, SELL,
};

use crate::gates::{Run, Trusting};
use crate::market::{Ids, Market, LARGEST_ORDER};
use crate::random::Random;

/// One roster and the events after it, 48 bytes each.
pub struct Day {
    pub roster: Vec<u8>,
    pub events: Vec<u8>,
}

impl Day {
    /// The day that a market's parameters fix.
    pub fn of(market: Market) -> Day {
        let mut session = Session::new(market);
        session.morning();
        while session.day.count() < market.events {
            session.step();
        }
        session.day
    }

    pub fn count(&self) -> usize {
        self.events.len() / EVENT_LENGTH
    }
}

#[derive(Clone, Copy)]
struct Open {
    id: u64,
    total: i64,
    filled: i64,
}

/// The exchange and the clients. They know which orders are open by the answers of a gate.
struct Session {
    market: Market,
    random: Random,
    gate: Trusting,
    day: Day,
    open: Vec<Open>,
    last_id: u64,
    /// The order that closed last.
    closed: u64,
    /// The block in force.
    block: Option<Fields>,
}

impl Session {
    fn new(market: Market) -> Session {
        let roster = market.roster();
        Session {
            market,
            random: Random::new(0x6a09_e667_f3bc_c908),
            gate: Trusting::open(&roster),
            day: Day {
                roster,
                events: Vec::with_capacity(market.events * EVENT_LENGTH),
            },
            open: Vec::new(),
            last_id: 0,
            closed: 1,
            block: None,
        }
    }

    /// The answer to an event, which joins the day.
    fn send(&mut self, event: Fields) -> u8 {
        let bytes = event.bytes();
        let mut answer = [0];
        self.gate.run(&bytes, &mut answer);
        self.day.events.extend(bytes);
        answer[0]
    }

    /// Every default and group line, an own line for every third instrument, and the balances.
    fn morning(&mut self) {
        let market = self.market;
        for account in 1..=market.accounts {
            for contract in 1..=market.contracts {
                self.send(market.default_line(account, contract));
            }
            for group in 1..=market.groups {
                self.send(market.group_line(account, group));
            }
            for instrument in 1..=market.instruments {
                if instrument % 3 == 0 {
                    self.send(market.own_line(account, instrument));
                }
                let s = self.random.between(-500, 500);
                self.send(balance(account, instrument, s));
            }
        }
    }

    /// Sends the next event. Of a hundred about 32 are NEW, 15 REPLACE, 18 cancels, 32 fills, and 3 others.
    fn step(&mut self) {
        if self.block.is_some() && self.random.chance(10) {
            return self.lift();
        }
        let few = self.open.len() < self.market.open_orders;
        match self.random.below(100) {
            0..=2 => self.rare(),
            3..=17 => self.replace(),
            18..=35 => self.fill_part(),
            _ if self.random.chance(if few { 75 } else { 25 }) => self.enter(),
            _ if self.random.chance(55) => self.cancel(),
            _ => self.fill_whole(),
        }
    }

    fn account(&mut self) -> u16 {
        1 + self.random.below(self.market.accounts.into()) as u16
    }

    fn instrument(&mut self) -> u16 {
        1 + self.random.below(self.market.instruments.into()) as u16
    }

    fn group(&mut self) -> u16 {
        1 + self.random.below(self.market.groups.into()) as u16
    }

    fn next_id(&mut self) -> u64 {
        self.last_id = match self.market.ids {
            Ids::Random => self.random.number(),
            Ids::Ascending => self.last_id + 1 + self.random.below(8) as u64,
        };
        self.last_id
    }

    /// One of the open orders and its place.
    fn pick(&mut self) -> Option<(usize, Open)> {
        let place = match self.open.len() {
            0 => return None,
            count => self.random.below(count),
        };
        Some((place, self.open[place]))
    }

    fn enter(&mut self) {
        let id = self.next_id();
        let side = if self.random.chance(50) { BUY } else { SELL };
        let (account, instrument) = (self.account(), self.instrument());
        let total = self.random.between(1, LARGEST_ORDER + 5);
        if self.send(new(side, account, instrument, id, total)) == 0 {
            let filled = 0;
            self.open.push(Open { id, total, filled });
        }
    }

    /// Raises or lowers an order.
    fn replace(&mut self) {
        let Some((place, order)) = self.pick() else {
            return self.enter();
        };
        let total = match self.random.chance(50) {
            true => order.total + self.random.between(1, 60),
            false => self.random.between(order.filled + 1, order.total),
        };
        if self.send(replace(order.id, total)) == 0 {
            self.open[place].total = total;
        }
    }

    fn cancel(&mut self) {
        let Some((place, order)) = self.pick() else {
            return self.enter();
        };
        self.send(cancel(order.id));
        self.close(place);
    }

    fn fill_part(&mut self) {
        let Some((place, order)) = self.pick() else {
            return self.enter();
        };
        let remaining = order.total - order.filled;
        if remaining == 1 {
            return self.fill_whole();
        }
        let quantity = self.random.between(1, remaining - 1);
        self.send(fill(order.id, quantity));
        self.open[place].filled += quantity;
    }

    fn fill_whole(&mut self) {
        let Some((place, order)) = self.pick() else {
            return self.enter();
        };
        self.send(fill(order.id, order.total - order.filled));
        self.close(place);
    }

    fn close(&mut self, place: usize) {
        self.closed = self.open.swap_remove(place).id;
    }

    /// Lines, blocks and balances, and events that are refused.
    fn rare(&mut self) {
        match self.random.below(8) {
            0 => self.set_line(),
            1 => self.block(),
            2 => self.balance(),
            3 => self.too_late(),
            4 => self.duplicate(),
            5 => self.too_much(),
            6 => self.off_roster(),
            _ => self.junk(),
        }
    }

    /// Sets a default or group line again; sets an own line, or lifts it.
    fn set_line(&mut self) {
        let (market, account) = (self.market, self.account());
        let (instrument, group) = (self.instrument(), self.group());
        let line = match self.random.below(4) {
            0 => market.default_line(account, 1 + instrument % market.contracts),
            1 => market.group_line(account, group),
            2 => market.own_line(account, instrument),
            _ => limit(limit_level::INSTRUMENT, account, instrument, [-1; 4]),
        };
        self.send(line);
    }

    /// Blocks an account, an instrument or a group, if no block is in force.
    fn block(&mut self) {
        if self.block.is_some() {
            return self.lift();
        }
        let (account, instrument, group) = (self.account(), self.instrument(), self.group());
        let on = match self.random.below(3) {
            0 => block(block_level::ACCOUNT, account, 0, 1),
            1 => block(block_level::INSTRUMENT, 0, instrument, 1),
            _ => block(block_level::GROUP, account, group, 1),
        };
        self.send(on);
        self.block = Some(on);
    }

    fn lift(&mut self) {
        if let Some(on) = self.block.take() {
            self.send(block(on.level, on.account, on.item, 0));
        }
    }

    /// A balance, which an account that trades is refused.
    fn balance(&mut self) {
        let (account, instrument) = (self.account(), self.instrument());
        self.send(balance(account, instrument, 0));
    }

    /// A cancel or a replace that crosses the close of its order.
    fn too_late(&mut self) {
        let event = match self.random.chance(50) {
            true => cancel(self.closed),
            false => replace(self.closed, LARGEST_ORDER),
        };
        self.send(event);
    }

    /// A NEW with an open id.
    fn duplicate(&mut self) {
        let Some((_, order)) = self.pick() else {
            return self.enter();
        };
        let (account, instrument) = (self.account(), self.instrument());
        self.send(new(BUY, account, instrument, order.id, 1));
    }

    /// A FILL of more than remains.
    fn too_much(&mut self) {
        let Some((_, order)) = self.pick() else {
            return self.enter();
        };
        self.send(fill(order.id, order.total - order.filled + 1));
    }

    /// A NEW for an account or instrument that is not on the roster, or of no quantity.
    fn off_roster(&mut self) {
        let id = self.next_id();
        let (account, instrument) = (self.account(), self.instrument());
        let event = match self.random.below(3) {
            0 => new(BUY, account + self.market.accounts, instrument, id, 1),
            1 => new(SELL, account, instrument + self.market.instruments, id, 1),
            _ => new(SELL, account, instrument, id, 0),
        };
        self.send(event);
    }

    /// An event of no kind, or with a field that its kind does not name.
    fn junk(&mut self) {
        let id = self.random.number();
        let event = match self.random.chance(50) {
            true => Fields {
                kind: kind::FILL + 1,
                ..cancel(id)
            },
            false => Fields {
                level: 1,
                ..cancel(id)
            },
        };
        self.send(event);
    }
}
