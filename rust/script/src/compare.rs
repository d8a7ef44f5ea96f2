//! What a program prints for a script, held to what it has to print.

use crate::program::{Ended, Program};
use oracle::heapscript;
use std::fmt;
use std::io;

/// The first thing that differs.
#[derive(Clone, Debug, PartialEq, Eq)]
pub enum Difference {
    /// A line of the output, counted from 1; none where an output has ended. Newlines are part of it.
    Line {
        number: usize,
        wanted: Option<Vec<u8>>,
        got: Option<Vec<u8>>,
    },
    /// The output is right, but the program failed.
    Status(String),
}

/// The first difference, if there is one.
#[must_use]
pub fn difference(wanted: &[u8], ended: &Ended) -> Option<Difference> {
    let lines = |text: &'_ [u8]| -> Vec<Vec<u8>> {
        let lines = text.split_inclusive(|byte| *byte == b'\n');
        lines.map(<[u8]>::to_vec).collect()
    };
    let (wanted, got) = (lines(wanted), lines(&ended.printed));
    let differs = |at: &usize| wanted.get(*at) != got.get(*at);
    if let Some(at) = (0..wanted.len().max(got.len())).find(differs) {
        return Some(Difference::Line {
            number: at + 1,
            wanted: wanted.get(at).cloned(),
            got: got.get(at).cloned(),
        });
    }
    ended.failed.clone().map(Difference::Status)
}

/// Runs a script on both sides.
///
/// # Errors
/// The program cannot be run.
pub fn compared(program: &dyn Program, script: &[u8]) -> io::Result<Option<Difference>> {
    let wanted = heapscript::printed(script);
    Ok(difference(wanted.as_bytes(), &program.play(script)?))
}

impl Difference {
    /// What kind it is, by the line that should be there: shrinking keeps to one kind. What is there
    /// instead may only be what follows.
    #[must_use]
    pub fn kind(&self) -> String {
        match self {
            Self::Line { wanted, .. } => kind(wanted),
            Self::Status(_) => "status".to_owned(),
        }
    }
}

/// `freed`, `final`, `str`, `tab`, `ud`, or the refusal's number.
fn kind(line: &Option<Vec<u8>>) -> String {
    let line = String::from_utf8_lossy(line.as_deref().unwrap_or(b"nothing"));
    let words: Vec<&str> = line.split_whitespace().collect();
    let word = match words.as_slice() {
        ["line", _, "refused", number] => number,
        [_, word @ ("str" | "tab" | "ud"), ..] => word,
        [word, ..] => word,
        [] => "empty",
    };
    word.to_owned()
}

/// A line without odd bytes.
fn shown(line: &Option<Vec<u8>>) -> String {
    match line {
        None => "(nothing more)".to_owned(),
        Some(line) => match line.strip_suffix(b"\n") {
            Some(line) => line.escape_ascii().to_string(),
            None => format!("{} (no newline)", line.escape_ascii()),
        },
    }
}

impl fmt::Display for Difference {
    fn fmt(&self, f: &mut fmt::Formatter<'_>) -> fmt::Result {
        match self {
            Self::Line {
                number,
                wanted,
                got,
            } => {
                writeln!(f, "line {number} of the output differs")?;
                writeln!(f, "  oracle:  {}", shown(wanted))?;
                write!(f, "  program: {}", shown(got))
            }
            Self::Status(status) => write!(f, "the program failed: {status}"),
        }
    }
}
