//! The day of docs/SIGNS.md: a row for each event, with its answer and the figures after it. The tables of the
//! page are built of these rows, and the page has them word for word.

#[path = "signs_page.rs"]
mod page;

use crate::trial::{default_line, group_line, own_line, Trial};
use wire::{balance, cancel, fill, kind, new, replace, Fields, RosterSpec, BUY, SELL};

/// A row's name, its event, the answer, and the figures after it as the page writes them: S, B, V, PCI, PVI of
/// the row's instrument, PCC, PVC of its account's group.
type Row = (&'static str, Fields, u8, &'static str);

/// S, B, V, PCI, PVI, PCC and PVC.
type Figures = [i64; 7];

/// The limits of the last four figures, in their order.
type Limits = [i64; 4];

/// LCI and LVI of instruments 1, 2 and 3, in rows A and B.
const OWN: [[i64; 2]; 3] = [[4, 6], [8, 10], [5, 7]];

/// LCC and LVC in rows A to C.
const GROUP: [i64; 2] = [9, 10];

/// A limit that none of the small orders reaches.
const FAR: i64 = 100;

/// What each order of rows J is entered with, and what it is filled by.
const OPEN: i64 = 10;
const PARTS: [i64; 2] = [4, 6];

/// Limits of accounts 9 and 10.
const SHORT: Limits = [0, 5, FAR, FAR];
const LONG: Limits = [65_534, 0, 65_534, FAR];

/// The question that a BALANCE of an account that trades is refused by.
const TRADING: u8 = 10;

/// A row as it was worked.
struct Worked {
    name: &'static str,
    event: Fields,
    /// The NEW of the event's order, or the event where it is of no open order.
    of: Fields,
    answer: u8,
    before: Figures,
    after: Figures,
}

/// The day so far: its rows, and its orders.
struct Run {
    trial: Trial,
    entered: Vec<Fields>,
    rows: Vec<Worked>,
}

/// Ten accounts; one group and contract; instruments 1, 2 and 3 of weight 10000, −5000 (a put) and 0.
fn roster() -> RosterSpec {
    RosterSpec {
        accounts: 10,
        groups: 1,
        groups_of: vec![1],
        instruments: vec![(1, 10_000), (1, -5_000), (1, 0)],
    }
}

/// A NEW of account 1.
fn buy(instrument: u16, id: u64, quantity: i64) -> Fields {
    new(BUY, 1, instrument, id, quantity)
}

fn sell(instrument: u16, id: u64, quantity: i64) -> Fields {
    new(SELL, 1, instrument, id, quantity)
}

/// S, B, V, PCI, PVI, PCC and PVC; B and V are what PCI and PVI have beside S.
fn figures(trial: &Trial, account: u16, instrument: u16) -> Figures {
    let (s, pci, pvi) = trial.instrument(account, instrument);
    let (pcc, pvc) = trial.group(account, 1);
    [s, pci - s, pvi + s, pci, pvi, pcc, pvc]
}

/// The figures of an account in each instrument.
fn all_figures(trial: &Trial, account: u16) -> [Figures; 3] {
    [1, 2, 3].map(|instrument| figures(trial, account, instrument))
}

impl Run {
    /// An order that is accepted.
    #[track_caller]
    fn enter(&mut self, order: Fields) {
        self.trial.accept(order);
        self.entered.push(order);
    }

    /// Sets the limits of an account, of all its instruments and of its group.
    #[track_caller]
    fn limit(&mut self, account: u16, [lci, lvi, lcc, lvc]: Limits) {
        self.trial
            .accept(default_line(account, 1, [FAR, FAR, lci, lvi]));
        self.trial.accept(group_line(account, 1, lcc, lvc));
    }

    /// Works a row: the gate's answer and figures are the row's.
    #[track_caller]
    fn work(&mut self, row: Row) {
        let (name, event, answer, expected) = row;
        let open = self.entered.iter().find(|order| order.id == event.id);
        let of = *open.unwrap_or(&event);
        let before = figures(&self.trial, of.account, of.item);
        match (answer, event.kind) {
            (0, kind::NEW) => self.enter(event),
            (0, _) => self.trial.accept(event),
            (number, _) => self.trial.refuse(number, event),
        }
        let after = figures(&self.trial, of.account, of.item);
        assert_eq!(after.map(page::written).join(" "), expected, "{name}");
        self.rows.push(Worked {
            name,
            event,
            of,
            answer,
            before,
            after,
        });
    }

    #[track_caller]
    fn work_all<const N: usize>(&mut self, rows: [Row; N]) {
        for row in rows {
            self.work(row);
        }
    }
}

/// Account 1: an order on each side of each weight, to its limits.
fn orders(run: &mut Run) {
    for (instrument, [lci, lvi]) in (1..).zip(OWN) {
        run.trial
            .accept(own_line(1, instrument, [FAR, FAR, lci, lvi]));
    }
    run.trial.accept(group_line(1, 1, GROUP[0], GROUP[1]));
    run.work_all([
        ("A1", buy(1, 1, 4), 0, "0 4 0 4 0 40,000 0"),
        ("A2", sell(1, 2, 6), 0, "0 4 6 4 6 40,000 60,000"),
        ("A3", buy(2, 3, 8), 0, "0 8 0 8 0 40,000 100,000"),
        ("A4", sell(2, 4, 10), 0, "0 8 10 8 10 90,000 100,000"),
        ("A5", buy(3, 5, 5), 0, "0 5 0 5 0 90,000 100,000"),
        ("A6", sell(3, 6, 7), 0, "0 5 7 5 7 90,000 100,000"),
    ]);
}

/// Account 1: one contract more on each side of each weight, at the instruments' limits.
fn at_the_limits(run: &mut Run) {
    run.work_all([
        ("B1", buy(1, 11, 1), 21, "0 4 6 4 6 90,000 100,000"),
        ("B2", sell(1, 12, 1), 22, "0 4 6 4 6 90,000 100,000"),
        ("B3", buy(2, 13, 1), 21, "0 8 10 8 10 90,000 100,000"),
        ("B4", sell(2, 14, 1), 22, "0 8 10 8 10 90,000 100,000"),
        ("B5", buy(3, 15, 1), 21, "0 5 7 5 7 90,000 100,000"),
        ("B6", sell(3, 16, 1), 22, "0 5 7 5 7 90,000 100,000"),
    ]);
}

/// At the group's limits.
fn at_the_groups_limits(run: &mut Run) {
    run.trial.accept(default_line(1, 1, [FAR; 4]));
    for instrument in 1..=3 {
        run.trial.accept(own_line(1, instrument, [-1; 4]));
    }
    run.work_all([
        ("C1", buy(1, 21, 1), 23, "0 4 6 4 6 90,000 100,000"),
        ("C2", sell(1, 22, 1), 24, "0 4 6 4 6 90,000 100,000"),
        ("C3", buy(2, 23, 1), 24, "0 8 10 8 10 90,000 100,000"),
        ("C4", sell(2, 24, 1), 23, "0 8 10 8 10 90,000 100,000"),
        ("C5", buy(3, 25, 1), 0, "0 6 7 6 7 90,000 100,000"),
        ("C6", sell(3, 26, 1), 0, "0 6 8 6 8 90,000 100,000"),
    ]);
}

/// With one limit after the other below its position: LCI, LVI, LCC, LVC.
fn past_one_limit(run: &mut Run) {
    let blocks: [[Row; 6]; 4] = [
        [
            ("D1", buy(1, 31, 1), 21, "0 4 6 4 6 90,000 100,000"),
            ("D2", sell(1, 32, 1), 0, "0 4 7 4 7 90,000 110,000"),
            ("D3", buy(2, 33, 1), 21, "0 8 10 8 10 90,000 110,000"),
            ("D4", sell(2, 34, 1), 0, "0 8 11 8 11 95,000 110,000"),
            ("D5", buy(3, 35, 1), 21, "0 6 8 6 8 95,000 110,000"),
            ("D6", sell(3, 36, 1), 0, "0 6 9 6 9 95,000 110,000"),
        ],
        [
            ("E1", buy(1, 41, 1), 0, "0 5 7 5 7 105,000 110,000"),
            ("E2", sell(1, 42, 1), 22, "0 5 7 5 7 105,000 110,000"),
            ("E3", buy(2, 43, 1), 0, "0 9 11 9 11 105,000 115,000"),
            ("E4", sell(2, 44, 1), 22, "0 9 11 9 11 105,000 115,000"),
            ("E5", buy(3, 45, 1), 0, "0 7 9 7 9 105,000 115,000"),
            ("E6", sell(3, 46, 1), 22, "0 7 9 7 9 105,000 115,000"),
        ],
        [
            ("F1", buy(1, 51, 1), 23, "0 5 7 5 7 105,000 115,000"),
            ("F2", sell(1, 52, 1), 0, "0 5 8 5 8 105,000 125,000"),
            ("F3", buy(2, 53, 1), 0, "0 10 11 10 11 105,000 130,000"),
            ("F4", sell(2, 54, 1), 23, "0 10 11 10 11 105,000 130,000"),
            ("F5", buy(3, 55, 1), 0, "0 8 9 8 9 105,000 130,000"),
            ("F6", sell(3, 56, 1), 0, "0 8 10 8 10 105,000 130,000"),
        ],
        [
            ("G1", buy(1, 61, 1), 0, "0 6 8 6 8 115,000 130,000"),
            ("G2", sell(1, 62, 1), 24, "0 6 8 6 8 115,000 130,000"),
            ("G3", buy(2, 63, 1), 24, "0 10 11 10 11 115,000 130,000"),
            ("G4", sell(2, 64, 1), 0, "0 10 12 10 12 120,000 130,000"),
            ("G5", buy(3, 65, 1), 0, "0 9 10 9 10 120,000 130,000"),
            ("G6", sell(3, 66, 1), 0, "0 9 11 9 11 120,000 130,000"),
        ],
    ];
    for (limit, rows) in blocks.into_iter().enumerate() {
        let mut limits = [FAR; 4];
        limits[limit] = 0;
        run.limit(1, limits);
        run.work_all(rows);
    }
}

/// Accounts 2 to 7: a balance of −2 and of 2 at each weight.
fn balances(run: &mut Run) {
    let of_account_1 = all_figures(&run.trial, 1);
    run.work_all([
        ("H1", balance(2, 1, -2), 0, "−2 0 0 −2 2 −20,000 20,000"),
        ("H2", balance(3, 1, 2), 0, "2 0 0 2 −2 20,000 −20,000"),
        ("H3", balance(4, 2, -2), 0, "−2 0 0 −2 2 10,000 −10,000"),
        ("H4", balance(5, 2, 2), 0, "2 0 0 2 −2 −10,000 10,000"),
        ("H5", balance(6, 3, -2), 0, "−2 0 0 −2 2 0 0"),
        ("H6", balance(7, 3, 2), 0, "2 0 0 2 −2 0 0"),
    ]);
    run.trial.refuse(TRADING, balance(1, 1, 2));
    assert_eq!(all_figures(&run.trial, 1), of_account_1);
}

/// Account 8: an order of 10 on each side of each weight, filled by 4 and then by the 6 that remain.
fn fills(run: &mut Run) {
    run.limit(8, [FAR; 4]);
    for instrument in 1..=3 {
        let id = 99 + 2 * u64::from(instrument);
        run.enter(new(BUY, 8, instrument, id, OPEN));
        run.enter(new(SELL, 8, instrument, id + 1, OPEN));
    }
    let [part, rest] = PARTS;
    for open in all_figures(&run.trial, 8) {
        let open = open.map(page::written).join(" ");
        assert_eq!(open, "0 10 10 10 10 150,000 150,000");
    }
    run.work_all([
        ("J1", fill(101, part), 0, "4 6 10 10 6 150,000 110,000"),
        ("J2", fill(101, rest), 0, "10 0 10 10 0 150,000 50,000"),
        ("J3", fill(102, part), 0, "6 0 6 6 0 110,000 50,000"),
        ("J4", fill(102, rest), 0, "0 0 0 0 0 50,000 50,000"),
        ("J5", fill(103, part), 0, "4 6 10 10 6 30,000 50,000"),
        ("J6", fill(103, rest), 0, "10 0 10 10 0 0 50,000"),
        ("J7", fill(104, part), 0, "6 0 6 6 0 0 30,000"),
        ("J8", fill(104, rest), 0, "0 0 0 0 0 0 0"),
        ("J9", fill(105, part), 0, "4 6 10 10 6 0 0"),
        ("J10", fill(105, rest), 0, "10 0 10 10 0 0 0"),
        ("J11", fill(106, part), 0, "6 0 6 6 0 0 0"),
        ("J12", fill(106, rest), 0, "0 0 0 0 0 0 0"),
    ]);
    // filled whole, they are open no more
    for id in 101..=106 {
        run.trial.refuse(11, fill(id, 1));
    }
}

/// Account 8: an order filled in part, then raised, lowered and cancelled.
fn replaces(run: &mut Run) {
    run.work_all([
        ("K1", new(BUY, 8, 1, 107, 10), 0, "0 10 0 10 0 100,000 0"),
        ("K2", fill(107, 4), 0, "4 6 0 10 −4 100,000 −40,000"),
        ("K3", replace(107, 12), 0, "4 8 0 12 −4 120,000 −40,000"),
        ("K4", replace(107, 7), 0, "4 3 0 7 −4 70,000 −40,000"),
        ("K5", cancel(107), 0, "4 0 0 4 −4 40,000 −40,000"),
    ]);
}

/// Account 9 opens two contracts short, account 10 with 65,534: whoever reads one as the other gives other
/// answers.
fn minus_two(run: &mut Run) {
    run.limit(9, SHORT);
    run.work_all([
        ("L1", balance(9, 1, -2), 0, "−2 0 0 −2 2 −20,000 20,000"),
        ("L2", new(BUY, 9, 1, 201, 2), 0, "−2 2 0 0 2 0 20,000"),
        ("L3", new(BUY, 9, 1, 202, 1), 21, "−2 2 0 0 2 0 20,000"),
        ("L4", new(SELL, 9, 1, 203, 3), 0, "−2 2 3 0 5 0 50,000"),
        ("L5", new(SELL, 9, 1, 204, 1), 22, "−2 2 3 0 5 0 50,000"),
        ("L6", fill(201, 2), 0, "0 0 3 0 3 0 30,000"),
        ("L7", fill(203, 3), 0, "−3 0 0 −3 3 −30,000 30,000"),
    ]);
    run.limit(10, LONG);
    run.work_all([
        (
            "L8",
            balance(10, 1, 65_534),
            0,
            "65,534 0 0 65,534 −65,534 655,340,000 −655,340,000",
        ),
        (
            "L9",
            new(BUY, 10, 1, 211, 1),
            21,
            "65,534 0 0 65,534 −65,534 655,340,000 −655,340,000",
        ),
        (
            "L10",
            new(SELL, 10, 1, 212, 1),
            0,
            "65,534 0 1 65,534 −65,533 655,340,000 −655,330,000",
        ),
    ]);
}

/// The day, worked.
fn day() -> Run {
    let mut run = Run {
        trial: Trial::open(&roster()),
        entered: Vec::new(),
        rows: Vec::new(),
    };
    orders(&mut run);
    at_the_limits(&mut run);
    at_the_groups_limits(&mut run);
    past_one_limit(&mut run);
    balances(&mut run);
    fills(&mut run);
    replaces(&mut run);
    minus_two(&mut run);
    run
}

#[test]
fn the_day_of_the_signs_page() {
    let run = day();
    assert_eq!(run.rows.len(), 75);
    // no account moved another's positions
    for (account, instrument, expected) in [
        (1, 1, "0 6 8 6 8 120,000 130,000"),
        (1, 2, "0 10 12 10 12 120,000 130,000"),
        (1, 3, "0 9 11 9 11 120,000 130,000"),
        (2, 1, "−2 0 0 −2 2 −20,000 20,000"),
    ] {
        let figures = figures(&run.trial, account, instrument);
        assert_eq!(figures.map(page::written).join(" "), expected);
    }
    page::assert_has_tables(&run.rows);
    page::assert_has_sentences(&run.rows);
}
