//! The examples of the repository, scripts with what they print.

use crate::compare::{Difference, difference};
use crate::program::Program;
use std::fs;
use std::io;
use std::path::{Path, PathBuf};

/// A script and what it prints, as they are stored.
#[derive(Clone, Debug, PartialEq, Eq)]
pub struct Example {
    pub name: String,
    pub script: Vec<u8>,
    pub printed: Vec<u8>,
}

/// Where they are.
#[must_use]
pub fn folder() -> PathBuf {
    Path::new(env!("CARGO_MANIFEST_DIR")).join("../../examples/heapscript")
}

/// All examples of a folder, by name.
///
/// # Errors
/// A file cannot be read; a script without its output is one of them.
pub fn examples(folder: &Path) -> io::Result<Vec<Example>> {
    let mut found = Vec::new();
    for entry in fs::read_dir(folder)? {
        let path = entry?.path();
        if path.extension().is_none_or(|word| word != "script") {
            continue;
        }
        let name = path.file_stem().unwrap_or_default();
        found.push(Example {
            name: name.to_string_lossy().into_owned(),
            script: fs::read(&path)?,
            printed: fs::read(path.with_extension("out"))?,
        });
    }
    found.sort_by(|one, other| one.name.cmp(&other.name));
    Ok(found)
}

/// The first example for which the program prints anything else, if there is one.
///
/// # Errors
/// The program cannot be run.
pub fn compared(
    program: &dyn Program,
    examples: &[Example],
) -> io::Result<Option<(String, Difference)>> {
    for example in examples {
        let ended = program.play(&example.script)?;
        if let Some(difference) = difference(&example.printed, &ended) {
            return Ok(Some((example.name.clone(), difference)));
        }
    }
    Ok(None)
}
