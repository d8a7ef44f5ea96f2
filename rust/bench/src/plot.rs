//! The plot of the page: the ratios, row by row, and the times of all engines for the same tables.

use crate::group::{self, Group};
use crate::lua::Lua;
use crate::numbers::round_time;
use crate::row::{MOST_RATIO, Row, grouped};
use crate::svg::{Axis, Svg};
use timing::Spread;

/// Pixels of a row, of a row with several engines and of each of them, of a group's title, of the
/// names at the left, and of the whole.
const ROW: f64 = 16.0;
const ENGINES_ROW: f64 = 30.0;
const ENGINE: f64 = 6.0;
const TITLE: f64 = 24.0;
const NAMES: f64 = 250.0;
const WIDTH: f64 = 860.0;

const WITHIN: &str = "#0072b2";
const ABOVE: &str = "#d55e00";
const PLAIN: &str = "#777777";
const KEY: [(&str, &str); 3] = [
    (WITHIN, "within what is asked of it"),
    (ABOVE, "above what is asked of it"),
    (PLAIN, "nothing is asked"),
];

const ENGINES: [&str; 4] = ["#0072b2", "#e69f00", "#009e73", "#cc79a7"];

/// An axis over all that is to be shown.
fn axis(spreads: impl Iterator<Item = Spread>, ticks: &[f64]) -> Axis {
    let (mut low, mut high) = (f64::MAX, f64::MIN);
    for spread in spreads {
        low = low.min(spread.low);
        high = high.max(spread.high);
    }
    let from = ticks.iter().rev().find(|tick| **tick <= low);
    let to = ticks.iter().find(|tick| **tick >= high);
    Axis {
        low: from.copied().unwrap_or(low),
        high: to.copied().unwrap_or(high),
        left: NAMES,
        right: WIDTH - 20.0,
    }
}

const RATIOS: [f64; 13] = [
    0.01, 0.02, 0.05, 0.1, 0.2, 0.5, 1.0, 2.0, 5.0, 10.0, 20.0, 50.0, 100.0,
];

/// Dark where it is within what is asked, warm where it is above, gray where nothing is asked.
fn colour(row: &Row) -> &'static str {
    match row.is_met() {
        Some(true) => WITHIN,
        Some(false) => ABOVE,
        None => PLAIN,
    }
}

fn height(groups: &[(&'static Group, Vec<&Row>)]) -> f64 {
    let rows: usize = groups.iter().map(|(_, rows)| rows.len()).sum();
    rows as f64 * ROW + groups.len() as f64 * TITLE
}

/// The ratios from a height on; the height below them.
fn ratios(svg: &mut Svg, rows: &[Row], top: f64) -> f64 {
    let groups = grouped(rows.iter().filter(|row| row.ratio.is_some()));
    let limits = [1.0, MOST_RATIO].map(|n| Spread::of(vec![n]));
    let shown = rows.iter().filter_map(|row| row.ratio).chain(limits);
    let axis = axis(shown, &RATIOS);
    svg.title(
        top,
        "Ours over the source's time: median of the runs, lowest to highest",
    );
    for (i, (colour, text)) in KEY.into_iter().enumerate() {
        svg.legend(NAMES + 180.0 * i as f64, top + 20.0, text, colour);
    }
    let (first, mut y) = (top + 52.0, top + 52.0);
    let last = first + height(&groups);
    svg.ticks(&axis, &RATIOS, (first, last), |n| n.to_string());
    svg.limit(axis.at(1.0), (first, last), "1.0", "end");
    svg.limit(axis.at(MOST_RATIO), (first, last), "1.25", "start");
    for (group, rows) in groups {
        svg.heading(y + 17.0, group.title);
        y += TITLE;
        for row in rows {
            svg.name(NAMES - 10.0, y + 12.0, &row.name);
            if let Some(ratio) = row.ratio {
                svg.dot(&axis, y + 8.0, ratio, colour(row));
            }
            y += ROW;
        }
    }
    y
}

const TIMES: [f64; 9] = [1e2, 1e3, 1e4, 1e5, 1e6, 1e7, 1e8, 1e9, 1e10];

/// The engines that have a time for a row, each with its name and colour.
fn engines<'a>(row: &Row, lua: &'a [Lua]) -> Vec<(&'a str, &'static str, Spread)> {
    let ours = [("ours", Some(row.ours)), ("the source", row.source)];
    let others = lua
        .iter()
        .map(|other| (other.name, other.spread(&row.name)));
    let all = ours.into_iter().chain(others).zip(ENGINES);
    all.filter_map(|((name, spread), colour)| Some((name, colour, spread?)))
        .collect()
}

/// The full collections of the same tables by all engines.
fn beside(svg: &mut Svg, rows: &[Row], lua: &[Lua], top: f64) -> f64 {
    let rows: Vec<&Row> = rows
        .iter()
        .filter(|row| row.group.key == group::TABLES.key)
        .collect();
    let spreads = rows
        .iter()
        .flat_map(|row| engines(row, lua))
        .map(|engine| engine.2);
    let axis = axis(spreads, &TIMES);
    svg.title(top, "Full collection of the same tables: time by engine");
    let shown = rows
        .first()
        .map(|row| engines(row, lua))
        .unwrap_or_default();
    for (i, (name, colour, _)) in shown.into_iter().enumerate() {
        svg.legend(NAMES + 130.0 * i as f64, top + 20.0, name, colour);
    }
    let (first, mut y) = (top + 52.0, top + 52.0);
    let last = first + rows.len() as f64 * ENGINES_ROW;
    svg.ticks(&axis, &TIMES, (first, last), round_time);
    for row in rows {
        svg.name(NAMES - 10.0, y + ENGINES_ROW / 2.0 + 4.0, &row.name);
        for (i, (_, colour, spread)) in engines(row, lua).into_iter().enumerate() {
            svg.dot(&axis, y + ENGINE * (i as f64 + 1.0), spread, colour);
        }
        y += ENGINES_ROW;
    }
    y
}

pub fn plot(rows: &[Row], lua: &[Lua]) -> String {
    let mut svg = Svg::default();
    let below = ratios(&mut svg, rows, 24.0);
    let below = beside(&mut svg, rows, lua, below + 40.0);
    svg.whole(WIDTH, below + 24.0)
}
