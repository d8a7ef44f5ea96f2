//! The tables of the page, in Markdown: a group each.

use crate::group::{self, Group};
use crate::lua::Lua;
use crate::numbers::{ratio, ratios, times};
use crate::row::{Row, grouped};

/// A table's line.
fn line(cells: &[String]) -> String {
    format!("| {} |\n", cells.join(" | "))
}

fn head(names: &[String]) -> String {
    let rule = format!("|{}\n", "---|".repeat(names.len()));
    line(names) + &rule
}

/// What is timed stands above the table where it is the same for all rows.
fn shared_what<'a>(rows: &[&'a Row]) -> Option<&'a str> {
    let first = rows.first()?.what.as_str();
    rows.iter().all(|row| row.what == first).then_some(first)
}

/// The other engines have times for the tables alone.
fn others<'a>(group: &Group, lua: &'a [Lua]) -> &'a [Lua] {
    if group.key == group::TABLES.key {
        lua
    } else {
        &[]
    }
}

fn cells(row: &Row, with_what: bool, lua: &[Lua]) -> Vec<String> {
    let mut cells = vec![row.name.clone()];
    if with_what {
        cells.push(row.what.clone());
    }
    let missing = || "none".to_string();
    cells.push(times(row.ours));
    cells.push(row.source.map_or_else(missing, times));
    cells.push(row.ratio.map_or_else(missing, ratios));
    for other in lua {
        let spread = other.spread(&row.name);
        cells.push(spread.map_or_else(missing, times));
        let over = |other: timing::Spread| ratio(row.ours.median / other.median);
        cells.push(spread.map_or_else(missing, over));
    }
    cells
}

fn names(with_what: bool, lua: &[Lua]) -> Vec<String> {
    let what = with_what.then_some("What is timed");
    let names = ["Row"].into_iter().chain(what);
    let mut names: Vec<String> = names
        .chain(["Ours", "The source", "Ratio"])
        .map(String::from)
        .collect();
    for other in lua {
        names.extend([other.name.to_string(), format!("Ours over {}", other.name)]);
    }
    names
}

fn table(group: &Group, rows: &[&Row], lua: &[Lua]) -> String {
    let lua = others(group, lua);
    let shared = shared_what(rows);
    let mut text = format!("### {}\n\n", group.title);
    if let Some(what) = shared {
        text += &format!("Timed: {what}.\n\n");
    }
    text += &head(&names(shared.is_none(), lua));
    for row in rows {
        text += &line(&cells(row, shared.is_none(), lua));
    }
    text
}

/// All tables, in the order of the groups.
pub fn tables(rows: &[Row], lua: &[Lua]) -> String {
    let groups = grouped(rows.iter()).into_iter();
    let tables: Vec<String> = groups
        .map(|(group, rows)| table(group, &rows, lua))
        .collect();
    tables.join("\n")
}
