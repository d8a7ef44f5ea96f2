//! Compares our calls on odd buffers with the second reading: `compare_odd [CALLS [SEED [untimed]]]`,
//! 100,000 and 1 by default. A difference is made small and told; a call over its bound fails too, unless
//! times are not looked at.

use odd::judge::Judge;
use odd::run::Run;
use std::process::ExitCode;

fn number(word: Option<String>, otherwise: u64) -> Result<u64, String> {
    word.map_or(Ok(otherwise), |w| {
        w.parse().map_err(|_| format!("not a number: {w}"))
    })
}

/// Whether times are held to the bound.
fn timed(word: Option<String>) -> Result<bool, String> {
    match word.as_deref() {
        None => Ok(true),
        Some("untimed") => Ok(false),
        Some(other) => Err(format!("not `untimed`: {other}")),
    }
}

/// What was measured.
fn times(judge: &Judge) -> String {
    let (again, nearest) = (judge.disturbed, &judge.nearest);
    format!("none over its bound, {again} only when first measured; nearest: {nearest}")
}

fn compared() -> Result<String, String> {
    let mut words = std::env::args().skip(1);
    let calls = number(words.next(), 100_000)?;
    let seed = number(words.next(), 1)?;
    let timed = timed(words.next())?;
    let mut run = Run::new(seed, timed);
    let found = run.until(calls);
    let total = run.judge.tally.total();
    found.map_err(|finding| format!("seed {seed}, call {total}, {finding}"))?;
    let times = if timed {
        times(&run.judge)
    } else {
        "untimed".to_owned()
    };
    let tally = &run.judge.tally;
    Ok(format!(
        "{total} calls compared, seed {seed}: no difference; {times}\n{tally}"
    ))
}

fn main() -> ExitCode {
    match compared() {
        Ok(text) => {
            println!("odd: {text}");
            ExitCode::SUCCESS
        }
        Err(text) => {
            eprintln!("odd: {text}");
            ExitCode::FAILURE
        }
    }
}
