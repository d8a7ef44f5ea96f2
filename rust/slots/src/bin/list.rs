//! Writes the fixed list that the program `arena_replay` replays: `list FOLDER`, the folder of that
//! crate, whose `stdin` and `stdout` it makes. `list` alone says whether they are as it would make them.

use slots::list;
use std::path::Path;
use std::process::ExitCode;
use std::{fs, io};

const SEED: u64 = 20_261_115;
const LENGTH: usize = 500;

fn stored(folder: &Path) -> io::Result<(String, String)> {
    Ok((
        fs::read_to_string(folder.join("stdin"))?,
        fs::read_to_string(folder.join("stdout"))?,
    ))
}

fn done() -> Result<&'static str, String> {
    let list = list::made(SEED, LENGTH)?;
    let said = |e: io::Error| e.to_string();
    match std::env::args().nth(1) {
        Some(folder) => {
            let folder = Path::new(&folder);
            fs::write(folder.join("stdin"), list.operations).map_err(said)?;
            fs::write(folder.join("stdout"), list.answers).map_err(said)?;
            Ok("written")
        }
        None => {
            let folder = Path::new(env!("CARGO_MANIFEST_DIR")).join("../../crates/arena_replay");
            let (operations, answers) = stored(&folder).map_err(said)?;
            if (operations, answers) == (list.operations, list.answers) {
                Ok("as the source gives it")
            } else {
                Err("crates/arena_replay is not as the source gives it".into())
            }
        }
    }
}

fn main() -> ExitCode {
    match done() {
        Ok(word) => {
            println!("arena list: {word}");
            ExitCode::SUCCESS
        }
        Err(line) => {
            eprintln!("arena list: {line}");
            ExitCode::FAILURE
        }
    }
}
