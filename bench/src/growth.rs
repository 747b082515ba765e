//! How the time of an event grows with open orders, accounts and instruments.

use std::fmt::Write;

use crate::day::Day;
use crate::market::Market;
use crate::timing::{
    checking_single, proved_run, proved_single, shorten, trusting_run, Shortest, Timed, RUN_PART,
    WARM_UP,
};
use crate::verify;

/// The events of a day, and how many of them are timed one at a time.
const EVENTS: usize = 30_000;
const SINGLE: usize = 8_000;

/// The series of a panel.
pub const SERIES: [&str; 4] = [
    "gate, run",
    "trusting C, run",
    "gate, single events",
    "checking C, single events",
];

/// One size of a parameter, and the shortest time of each series.
pub struct Point {
    pub size: usize,
    day: Day,
    shortest: [Shortest; 4],
}

impl Point {
    fn new(size: usize, market: Market) -> Point {
        let day = Day::of(market);
        verify::answers(&day, WARM_UP + SINGLE);
        Point {
            size,
            day,
            shortest: Default::default(),
        }
    }

    fn shorten(&mut self) {
        let day = &self.day;
        let runs: [Timed; 4] = [
            &|| proved_run(day, RUN_PART),
            &|| trusting_run(day, RUN_PART),
            &|| proved_single(day, SINGLE),
            &|| checking_single(day, SINGLE),
        ];
        shorten(&mut self.shortest, runs);
    }

    /// Nanoseconds for an event of each series.
    pub fn times(&self) -> [f64; 4] {
        let [run, trusting, single, checking] = &self.shortest;
        [
            run.nanoseconds(EVENTS),
            trusting.nanoseconds(EVENTS),
            single.nanoseconds(SINGLE),
            checking.nanoseconds(SINGLE),
        ]
    }
}

/// One parameter of the heavy day, and the sizes that it took.
pub struct Panel {
    pub name: &'static str,
    pub points: Vec<Point>,
}

impl Panel {
    fn new(name: &'static str, sizes: &[usize], market: impl Fn(usize) -> Market) -> Panel {
        let points = sizes.iter().map(|&size| Point::new(size, market(size)));
        Panel {
            name,
            points: points.collect(),
        }
    }
}

/// The heavy day with one parameter changed at a time. Each repeat times every point once.
pub fn measure(repeats: usize) -> [Panel; 3] {
    let heavy = Market {
        events: EVENTS,
        ..Market::HEAVY
    };
    let open = [8, 16, 32, 64, 128, 192, 244];
    let accounts = [1, 2, 4, 8, 12, 16];
    let instruments = [1, 2, 4, 8, 16, 24, 32];
    let mut panels = [
        Panel::new("Open orders", &open, |open_orders| Market {
            open_orders,
            ..heavy
        }),
        Panel::new("Accounts", &accounts, |accounts| Market {
            accounts: accounts as u16,
            ..heavy
        }),
        Panel::new("Instruments", &instruments, |instruments| {
            heavy.with_instruments(instruments as u16)
        }),
    ];
    for _ in 0..repeats {
        let points = panels.iter_mut().flat_map(|panel| &mut panel.points);
        points.for_each(Point::shorten);
    }
    panels
}

/// The panels as Markdown.
pub fn table(panels: &[Panel]) -> String {
    let mut table = format!(
        "| Heavy day, ns per event | {} |\n|---|---:|---:|---:|---:|\n",
        SERIES.join(" | ")
    );
    for panel in panels {
        for point in &panel.points {
            let [run, trusting, single, checking] = point.times();
            writeln!(
                table,
                "| {}: {} | {run:.0} | {trusting:.0} | {single:.0} | {checking:.0} |",
                panel.name, point.size
            )
            .expect("a string takes every line");
        }
    }
    table
}
