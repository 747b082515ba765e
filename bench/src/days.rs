//! A day's figures, the gate beside its baselines.

use std::fmt::Write;
use std::io;

use crate::day::Day;
use crate::market::Market;
use crate::programs::{Input, BASELINE, PROVED};
use crate::timing::{
    best, checking_single, proved_run, proved_single, trusting_run, Shortest, RUN_PART, WARM_UP,
};
use crate::verify;

/// How many single events are timed.
const SINGLE: usize = 30_000;

/// The events of a block, as in the day program.
const BLOCK: usize = 1_024;

/// One comparison, in nanoseconds for an event.
pub struct Row {
    day: String,
    what: &'static str,
    gate: f64,
    baseline: f64,
}

/// Verifies and times the day of a market.
pub fn measure(name: &str, market: Market, repeats: usize) -> io::Result<Vec<Row>> {
    let day = Day::of(market);
    let answers = verify::answers(&day, WARM_UP + SINGLE);
    let input = Input::of(&day)?;
    verify::programs(&input)?;
    println!(
        "- {name}, how often each answer was given: {}",
        counted(&answers)
    );

    let whole = day.count();
    let program = |program| vec![input.time(program).expect("the program runs")];
    let shortest = best(
        repeats,
        [
            &|| proved_run(&day, RUN_PART),
            &|| trusting_run(&day, RUN_PART),
            &|| proved_run(&day, BLOCK),
            &|| trusting_run(&day, BLOCK),
            &|| proved_single(&day, SINGLE),
            &|| checking_single(&day, SINGLE),
            &|| program(PROVED),
            &|| program(BASELINE),
        ],
    );
    let compared = [
        ("run, calls of 16,384", whole),
        ("run, calls of 1,024", whole),
        ("single events", SINGLE),
        ("day program", whole),
    ];
    let rows = compared.iter().zip(shortest.chunks(2));
    let row = |(&(what, events), times): (&(&'static str, usize), &[Shortest])| Row {
        day: name.to_string(),
        what,
        gate: times[0].nanoseconds(events),
        baseline: times[1].nanoseconds(events),
    };
    Ok(rows.map(row).collect())
}

/// How often each answer was given.
fn counted(answers: &[u8]) -> String {
    let count = |answer: u8| answers.iter().filter(|&&each| each == answer).count();
    let counts = (0..=24).map(|answer| (answer, count(answer)));
    let given = counts.filter(|&(_, count)| count > 0);
    let texts: Vec<String> = given.map(|(answer, n)| format!("{answer}: {n}")).collect();
    texts.join(", ")
}

/// The rows as Markdown.
pub fn table(rows: &[Row]) -> String {
    let mut table = String::from(
        "| Day | What | Gate, ns per event | Baseline, ns per event | Gate, events per second | Baseline / gate |\n\
         |---|---|---:|---:|---:|---:|\n",
    );
    for row in rows {
        writeln!(
            table,
            "| {} | {} | {:.0} | {:.0} | {:.0} | {:.2} |",
            row.day,
            row.what,
            row.gate,
            row.baseline,
            1e9 / row.gate,
            row.baseline / row.gate,
        )
        .expect("a string takes every line");
    }
    table
}
