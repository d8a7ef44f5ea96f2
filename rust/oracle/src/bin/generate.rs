//! `generate SEED LINES [SIZES..]`: prints a random script; without the ten sizes the seed
//! chooses them. `generate --heapscript SEED LINES`: one for the program heapscript.

use oracle::{Sizes, generate, heapscript};
use std::io::{self, Write};
use std::process::ExitCode;

const USAGE: &str = "usage: generate SEED LINES [S T F U D H P STACK OPEN FRAMES]
       generate --heapscript SEED LINES";

fn main() -> ExitCode {
    let words: Vec<String> = std::env::args().skip(1).collect();
    match script(&words) {
        // Whoever reads the script may have seen enough; that is no trouble.
        Ok(bytes) => {
            let _ = io::stdout().write_all(&bytes);
            ExitCode::SUCCESS
        }
        Err(why) => {
            eprintln!("{why}");
            ExitCode::from(2)
        }
    }
}

fn script(words: &[String]) -> Result<Vec<u8>, String> {
    if let [mode, seed, lines] = words
        && mode == "--heapscript"
    {
        let (seed, lines) = (seed.parse().ok(), lines.parse().ok());
        let (seed, lines) = seed.zip(lines).ok_or(USAGE)?;
        return Ok(heapscript::generate::script(seed, lines));
    }
    let numbers: Option<Vec<u64>> = words.iter().map(|w| w.parse().ok()).collect();
    let numbers = numbers.ok_or(USAGE)?;
    let (seed, lines, rest) = match numbers.as_slice() {
        [seed, lines, rest @ ..] => (*seed, *lines, rest),
        _ => return Err(USAGE.to_owned()),
    };
    let sizes = match rest {
        [] => generate::sizes(seed),
        given => chosen(given).ok_or(USAGE)?,
    };
    let text = generate::script(seed, lines, sizes);
    let text = text.ok_or_else(|| "generate: sizes refused: 4".to_owned())?;
    Ok(text.into_bytes())
}

fn chosen(given: &[u64]) -> Option<Sizes> {
    let narrow: Option<Vec<u32>> = given.iter().map(|n| u32::try_from(*n).ok()).collect();
    let ten: [u32; 10] = narrow?.try_into().ok()?;
    Some(Sizes::from(ten))
}
