//! The growth as an SVG plot: a panel for each parameter, time on a logarithmic scale.

use std::fmt::Write;

use crate::growth::{Panel, Point, SERIES};

const WIDTH: f64 = 1_080.0;
const HEIGHT: f64 = 400.0;
/// The first panel's left edge, the step from panel to panel, a panel's size and top.
const LEFT: f64 = 64.0;
const STEP: f64 = 342.0;
const PANEL_WIDTH: f64 = 300.0;
const PANEL_HEIGHT: f64 = 260.0;
const TOP: f64 = 84.0;
/// The powers of ten at the ends of the time axis.
const LEAST: i32 = 1;
const MOST: i32 = 4;

/// The gate in blue, C in orange; a run solid, single events dashed.
const COLOURS: [&str; 4] = ["#1f5fa8", "#d9731a", "#1f5fa8", "#d9731a"];
const DASHES: [&str; 4] = ["none", "none", "6 4", "6 4"];

/// The whole plot.
pub fn svg(panels: &[Panel]) -> String {
    let mut svg = String::new();
    write(&mut svg, panels).expect("a string takes every line");
    svg
}

fn write(svg: &mut String, panels: &[Panel]) -> std::fmt::Result {
    writeln!(
        svg,
        r##"<svg xmlns="http://www.w3.org/2000/svg" viewBox="0 0 {WIDTH} {HEIGHT}" font-family="sans-serif" font-size="12" fill="#222">"##
    )?;
    writeln!(
        svg,
        r##"<rect width="{WIDTH}" height="{HEIGHT}" fill="#fcfcfa"/>"##
    )?;
    writeln!(
        svg,
        r##"<text x="{LEFT}" y="26" font-size="15" font-weight="bold">Time for an event of the heavy day, one parameter changed at a time</text>"##
    )?;
    legend(svg)?;
    for (place, panel) in panels.iter().enumerate() {
        let left = LEFT + STEP * place as f64;
        axes(svg, panel, left)?;
        for series in 0..SERIES.len() {
            line(svg, panel, left, series)?;
        }
    }
    writeln!(svg, "</svg>")
}

fn legend(svg: &mut String) -> std::fmt::Result {
    for (place, name) in SERIES.iter().enumerate() {
        let x = LEFT + 190.0 * place as f64;
        let (colour, dash) = (COLOURS[place], DASHES[place]);
        writeln!(
            svg,
            r##"<line x1="{x}" y1="50" x2="{}" y2="50" stroke="{colour}" stroke-width="2" stroke-dasharray="{dash}"/><text x="{}" y="54">{name}</text>"##,
            x + 30.0,
            x + 37.0
        )?;
    }
    Ok(())
}

/// The frame, the ticks and the names of both axes.
fn axes(svg: &mut String, panel: &Panel, left: f64) -> std::fmt::Result {
    for power in LEAST..=MOST {
        let y = height(10f64.powi(power));
        writeln!(
            svg,
            r##"<line x1="{left}" y1="{y:.1}" x2="{}" y2="{y:.1}" stroke="#ddd"/><text x="{}" y="{:.1}" text-anchor="end">{}</text>"##,
            left + PANEL_WIDTH,
            left - 6.0,
            y + 4.0,
            10i32.pow(power as u32)
        )?;
    }
    let bottom = TOP + PANEL_HEIGHT;
    for point in ticks(panel) {
        let x = left + across(panel, point);
        writeln!(
            svg,
            r##"<line x1="{x:.1}" y1="{bottom}" x2="{x:.1}" y2="{}" stroke="#888"/><text x="{x:.1}" y="{}" text-anchor="middle">{point}</text>"##,
            bottom + 5.0,
            bottom + 18.0
        )?;
    }
    writeln!(
        svg,
        r##"<rect x="{left}" y="{TOP}" width="{PANEL_WIDTH}" height="{PANEL_HEIGHT}" fill="none" stroke="#888"/>"##
    )?;
    writeln!(
        svg,
        r##"<text x="{}" y="{}" text-anchor="middle">{}</text><text x="{left}" y="{}">ns per event</text>"##,
        left + PANEL_WIDTH / 2.0,
        bottom + 38.0,
        panel.name,
        TOP - 7.0
    )
}

/// The sizes that get a tick: none stands nearer than a label's width to the one before it.
fn ticks(panel: &Panel) -> Vec<usize> {
    let mut ticks: Vec<usize> = Vec::new();
    for point in &panel.points {
        let near = |&last: &usize| across(panel, point.size) - across(panel, last) < 22.0;
        if !ticks.last().is_some_and(near) {
            ticks.push(point.size);
        }
    }
    ticks
}

fn line(svg: &mut String, panel: &Panel, left: f64, series: usize) -> std::fmt::Result {
    let (colour, dash) = (COLOURS[series], DASHES[series]);
    let place = |point: &Point| {
        let x = left + across(panel, point.size);
        (x, height(point.times()[series]))
    };
    let places: Vec<(f64, f64)> = panel.points.iter().map(place).collect();
    let joined: Vec<String> = places
        .iter()
        .map(|(x, y)| format!("{x:.1},{y:.1}"))
        .collect();
    writeln!(
        svg,
        r##"<polyline points="{}" fill="none" stroke="{colour}" stroke-width="2" stroke-dasharray="{dash}"/>"##,
        joined.join(" ")
    )?;
    for (x, y) in places {
        writeln!(
            svg,
            r##"<circle cx="{x:.1}" cy="{y:.1}" r="3" fill="{colour}"/>"##
        )?;
    }
    Ok(())
}

/// How far a size stands from the panel's left edge. The axis begins at 0.
fn across(panel: &Panel, size: usize) -> f64 {
    let largest = panel.points.iter().map(|point| point.size).max();
    PANEL_WIDTH * size as f64 / (largest.unwrap_or(1) as f64 * 1.04)
}

/// Where a time stands; times off the axis stand at its end.
fn height(nanoseconds: f64) -> f64 {
    let share = (nanoseconds.log10() - f64::from(LEAST)) / f64::from(MOST - LEAST);
    TOP + PANEL_HEIGHT * (1.0 - share.clamp(0.0, 1.0))
}
