//! Our collector beside the source's, timed: `bench [RUNS [ROUNDS]]` makes so many runs, each of so
//! many rounds, and writes docs/BENCHMARKS.md's tables and its plot; `bench once ROUNDS` makes one run
//! and prints its rows. `rust/bench/run` builds it as products are built and starts it.
//!
//! In a round a row is timed on both sides, in turns. A run gives the median of its rounds, and one
//! ratio; the page has the median of the runs, with the lowest and the highest.

#![forbid(unsafe_code)]

mod batch;
mod due;
mod graph;
mod group;
mod line;
mod lua;
mod machine;
mod numbers;
mod ours;
mod page;
mod plot;
mod row;
mod rows;
mod run;
mod runs;
mod side;
mod source;
mod svg;
mod table;
mod verdict;
mod weak_heap;

use std::process::ExitCode;

const RUNS: usize = 11;
const ROUNDS: usize = 21;

/// Makes the runs and writes the page.
fn whole(count: usize, rounds: usize) -> Result<(), String> {
    let machine = machine::told();
    let runs = runs::runs(count, rounds)?;
    let rows = row::rows(&runs.lines)?;
    let part = format!(
        "{count} runs of {rounds} rounds, {machine}.\n\n{}\n{}",
        verdict::verdicts(&rows, &runs.lua),
        table::tables(&rows, &runs.lua)
    );
    page::write(&part, &plot::plot(&rows, &runs.lua))?;
    println!(
        "bench: docs/{} and docs/{} are written",
        page::PAGE,
        page::PLOT
    );
    Ok(())
}

/// A number above 0.
fn number(word: &str) -> Result<usize, String> {
    let number = word.parse().ok().filter(|n| *n > 0);
    number.ok_or_else(|| format!("no number above 0: {word}"))
}

fn asked(words: &[&str]) -> Result<(), String> {
    match words {
        [] => whole(RUNS, ROUNDS),
        [runs::ONCE, rounds] => {
            rows::all(number(rounds)?);
            Ok(())
        }
        [runs] if *runs != runs::ONCE => whole(number(runs)?, ROUNDS),
        [runs, rounds] => whole(number(runs)?, number(rounds)?),
        _ => Err("usage: bench [RUNS [ROUNDS]], or bench once ROUNDS".into()),
    }
}

fn main() -> ExitCode {
    let words: Vec<String> = std::env::args().skip(1).collect();
    let words: Vec<&str> = words.iter().map(String::as_str).collect();
    match asked(&words) {
        Ok(()) => ExitCode::SUCCESS,
        Err(error) => {
            eprintln!("bench: {error}");
            ExitCode::from(2)
        }
    }
}
