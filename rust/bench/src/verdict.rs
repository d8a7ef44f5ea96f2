//! What is asked of the times, and what was found.

use crate::group::{self, Demand};
use crate::lua::Lua;
use crate::numbers::{ratio, time};
use crate::row::{MOST_NANOSECONDS, MOST_RATIO, Row};

/// The row that is to take at most half the source's time.
const HALF: &str = "4,096 slots, all live";

fn said(met: bool) -> &'static str {
    if met { "yes" } else { "no" }
}

/// The rows of a demand, the worst first.
fn asked(rows: &[Row], demand: Demand, of: impl Fn(&Row) -> Option<f64>) -> Vec<(&Row, f64)> {
    let rows = rows.iter().filter(|row| row.group.demand == demand);
    let mut list: Vec<(&Row, f64)> = rows.filter_map(|row| Some((row, of(row)?))).collect();
    list.sort_by(|a, b| b.1.total_cmp(&a.1));
    list
}

/// The worst row where all is met, else every row where it is not.
fn found(list: &[(&Row, f64)], number: impl Fn(f64) -> String) -> String {
    let told = |(row, n): &(&Row, f64)| format!("{}: {} {}", row.group.title, row.name, number(*n));
    let unmet = list.iter().filter(|(row, _)| row.is_met() == Some(false));
    let unmet: Vec<String> = unmet.map(told).collect();
    match list.first() {
        None => "no row".into(),
        Some(worst) if unmet.is_empty() => {
            format!("of {} rows the most is {}", list.len(), told(worst))
        }
        Some(_) => format!(
            "{} of {} rows are above: {}",
            unmet.len(),
            list.len(),
            unmet.join("; ")
        ),
    }
}

fn half(rows: &[Row], lua: &[Lua]) -> Option<String> {
    let row = rows
        .iter()
        .find(|row| row.group.key == group::TABLES.key && row.name == HALF)?;
    let ours = row.ratio?.median;
    let mut found = format!("{} of the source's", ratio(ours));
    for other in lua {
        if let Some(spread) = other.spread(HALF) {
            found += &format!(
                ", {} of {}'s",
                ratio(row.ours.median / spread.median),
                other.name
            );
        }
    }
    let asked = "the full collection of 4,096 tables, all live, in at most half the source's time";
    Some(format!("| {asked} | {found} | {} |\n", said(ours <= 0.5)))
}

/// A table of what is asked.
pub fn verdicts(rows: &[Row], lua: &[Lua]) -> String {
    let met = |list: &[(&Row, f64)]| said(list.iter().all(|(row, _)| row.is_met() == Some(true)));
    let collecting = asked(rows, Demand::Collecting, |row| row.ratio.map(|r| r.median));
    let cheap = asked(rows, Demand::Cheap, |row| Some(row.ours.median));
    let mut text = String::from("| Asked | Found (medians) | Met |\n|---|---|---|\n");
    text += &format!(
        "| no row of collecting above {MOST_RATIO} times the source | {} | {} |\n",
        found(&collecting, ratio),
        met(&collecting)
    );
    text += &format!(
        "| cheap calls below {MOST_NANOSECONDS} ns each | {} | {} |\n",
        found(&cheap, time),
        met(&cheap)
    );
    text + &half(rows, lua).unwrap_or_default()
}
