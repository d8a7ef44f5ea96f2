//! Compares our arena with the source's: `compare [OPERATIONS [SEED]]`, 1,000,000 and 1 by default.

use std::process::ExitCode;

fn number(word: Option<String>, otherwise: u64) -> Result<u64, String> {
    word.map_or(Ok(otherwise), |w| {
        w.parse().map_err(|_| format!("not a number: {w}"))
    })
}

fn compared() -> Result<String, String> {
    let mut words = std::env::args().skip(1);
    let operations = number(words.next(), 1_000_000)?;
    let seed = number(words.next(), 1)?;
    let random = slots::run::random(seed, operations)?;
    let sweeps = slots::run::every_sweep(seed, 12)?;
    Ok(format!(
        "arena: {random} random operations and {sweeps} sweeps compared, seed {seed}: no difference"
    ))
}

fn main() -> ExitCode {
    match compared() {
        Ok(line) => {
            println!("{line}");
            ExitCode::SUCCESS
        }
        Err(line) => {
            eprintln!("arena: {line}");
            ExitCode::FAILURE
        }
    }
}
