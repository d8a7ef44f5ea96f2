//! Compares our calls with the source's: `compare_calls [CALLS [SEED [SIZES]]]`, 100,000, 1 and `any`
//! by default. Each heap has a seed of its own, the first one the seed given; sizes are those of the
//! seed, or `small`, `smallest`, `long` or `ends` ones. A difference is named and shrunk.

use calls::compare::How;
use calls::heaps::{self, Which};
use std::process::ExitCode;

fn number(word: Option<String>, otherwise: u64) -> Result<u64, String> {
    word.map_or(Ok(otherwise), |w| {
        w.parse().map_err(|_| format!("not a number: {w}"))
    })
}

fn which(word: Option<String>) -> Result<Which, String> {
    let word = word.unwrap_or_else(|| "any".to_owned());
    let found = Which::NAMES.iter().find(|(name, _)| *name == word);
    let (_, which) = found.ok_or_else(|| format!("no such sizes: {word}"))?;
    Ok(*which)
}

fn compared() -> Result<String, String> {
    let mut words = std::env::args().skip(1);
    let calls = number(words.next(), 100_000)?;
    let seed = number(words.next(), 1)?;
    let which = which(words.next())?;
    let found = heaps::compared(which, seed, calls, How::default());
    let (heaps, tally) = found.map_err(|report| report.to_string())?;
    let total = tally.total();
    Ok(format!(
        "{total} calls on {heaps} heaps compared, seed {seed}: no difference\n{tally}"
    ))
}

fn main() -> ExitCode {
    match compared() {
        Ok(text) => {
            println!("calls: {text}");
            ExitCode::SUCCESS
        }
        Err(text) => {
            eprintln!("calls: {text}");
            ExitCode::FAILURE
        }
    }
}
