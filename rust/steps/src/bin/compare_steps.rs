//! Compares our steps with the source's: `compare_steps [STEPS [SEED]]`, 100,000 and 1 by default.
//! Each heap has a seed of its own, the first one the seed given. A difference is named and shrunk.

use std::process::ExitCode;
use steps::{Engine, StandIn, heaps, linked};

fn number(word: Option<String>, otherwise: u64) -> Result<u64, String> {
    word.map_or(Ok(otherwise), |w| {
        w.parse().map_err(|_| format!("not a number: {w}"))
    })
}

fn compared() -> Result<String, String> {
    let mut words = std::env::args().skip(1);
    let steps = number(words.next(), 100_000)?;
    let seed = number(words.next(), 1)?;
    let engine =
        |sizes| -> Box<dyn Engine> { linked().unwrap_or_else(|| Box::new(StandIn::new(sizes))) };
    let (heaps, tally) = heaps::compared(seed, steps, &engine).map_err(|r| r.to_string())?;
    let total = tally.total();
    Ok(format!(
        "{total} steps on {heaps} heaps compared, seed {seed}: no difference\n{tally}"
    ))
}

fn main() -> ExitCode {
    if linked().is_none() {
        println!("steps: feature engine_steps is off: a second oracle stands in for the engine");
    }
    match compared() {
        Ok(text) => {
            println!("steps: {text}");
            ExitCode::SUCCESS
        }
        Err(text) => {
            eprintln!("steps: {text}");
            ExitCode::FAILURE
        }
    }
}
