//! Compares the program heapscript with the oracle, to the byte:
//! `compare_scripts COUNT SEED [PROGRAM ARGUMENTS..]`: on so many random scripts of 200 lines, each
//! with a seed of its own, the first one the seed given, and on one that makes more objects than
//! there are numbers. A difference is named and shrunk.
//! `compare_scripts [--stored [PROGRAM ARGUMENTS..]]`: on the stored examples, held to the files.
//! The program is crates/heapscript/out/heapscript, which `rt run` makes there, unless one is given.

use script::program::Compiled;
use script::{random, stored};
use std::process::ExitCode;

const USAGE: &str = "usage: compare_scripts COUNT SEED [PROGRAM ARGUMENTS..]
       compare_scripts [--stored [PROGRAM ARGUMENTS..]]";

fn program(words: &[String]) -> Compiled {
    match words {
        [path, arguments @ ..] => Compiled::new(path.into(), arguments.to_vec()),
        [] => Compiled::heapscript(),
    }
}

fn random_scripts(count: u64, seed: u64, program: &Compiled) -> Result<String, String> {
    let found = random::scripts(program, count, seed).map_err(|error| error.to_string())?;
    let tally = found.map_err(|report| report.to_string())?;
    let numbers = random::every_number(program).map_err(|error| error.to_string())?;
    if let Some(difference) = numbers {
        return Err(format!("more objects than numbers: {difference}"));
    }
    Ok(format!(
        "{count} scripts compared, seed {seed}: no difference\n{tally}"
    ))
}

fn stored_scripts(program: &Compiled) -> Result<String, String> {
    let said = |error: std::io::Error| error.to_string();
    let examples = stored::examples(&stored::folder()).map_err(said)?;
    match stored::compared(program, &examples).map_err(said)? {
        Some((name, difference)) => Err(format!("{name}.script: {difference}")),
        None => Ok(format!("{} stored scripts: no difference", examples.len())),
    }
}

fn compared(words: &[String]) -> Result<String, String> {
    match words {
        [] => stored_scripts(&program(&[])),
        [mode, rest @ ..] if mode == "--stored" => stored_scripts(&program(rest)),
        [count, seed, rest @ ..] => {
            let numbers = count.parse().ok().zip(seed.parse().ok());
            let (count, seed) = numbers.ok_or(USAGE)?;
            random_scripts(count, seed, &program(rest))
        }
        _ => Err(USAGE.to_owned()),
    }
}

fn main() -> ExitCode {
    let words: Vec<String> = std::env::args().skip(1).collect();
    match compared(&words) {
        Ok(text) => {
            println!("scripts: {text}");
            ExitCode::SUCCESS
        }
        Err(text) => {
            eprintln!("scripts: {text}");
            ExitCode::FAILURE
        }
    }
}
