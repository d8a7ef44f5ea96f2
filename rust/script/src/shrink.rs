//! A short script that shows the same kind of difference.

use crate::compare::{Difference, compared};
use crate::program::Program;
use oracle::heapscript::{self, Play};
use std::fmt;
use std::io;

/// A script that differs.
#[derive(Clone, Debug, PartialEq, Eq)]
pub struct Shrunk {
    pub script: Vec<u8>,
    pub difference: Difference,
}

/// A line of a script, and the number that it makes.
#[derive(Clone)]
struct Line {
    bytes: Vec<u8>,
    makes: Option<u32>,
}

/// The lines of a script, as the oracle numbers what they make.
fn numbered(script: &[u8]) -> Vec<Line> {
    let mut play = Play::new();
    let mut line = |bytes: &[u8]| {
        let before = play.made().len();
        play.line(bytes);
        let after = play.made().len();
        Line {
            bytes: bytes.to_vec(),
            makes: (after > before).then_some(after as u32),
        }
    };
    heapscript::lines(script)
        .into_iter()
        .map(&mut line)
        .collect()
}

/// Which fields of a command are numbers of objects.
fn names(word: &[u8]) -> &'static [usize] {
    match word {
        b"push" => &[1],
        b"seti" => &[1, 3],
        b"setn" => &[1, 3, 4],
        b"meta" => &[1, 2],
        _ => &[],
    }
}

/// The line after some numbers are gone, zeros before numbers kept; none if it names one of them.
fn renumbered(line: &[u8], gone: &[u32]) -> Option<Vec<u8>> {
    let fields: Vec<&[u8]> = line.split(|byte| *byte == b' ').collect();
    let places = names(fields[0]);
    let mut kept: Vec<Vec<u8>> = Vec::new();
    for (place, field) in fields.iter().enumerate() {
        let text = std::str::from_utf8(field).ok();
        let number: Option<u32> = text.and_then(|text| text.parse().ok());
        match number.filter(|_| places.contains(&place)) {
            Some(number) if gone.contains(&number) => return None,
            Some(number) => {
                let below = gone.iter().filter(|n| **n < number).count();
                let zeros = field.iter().take_while(|byte| **byte == b'0').count();
                let number = (number as usize - below).to_string();
                kept.push([&field[..zeros.min(field.len() - 1)], number.as_bytes()].concat());
            }
            None => kept.push(field.to_vec()),
        }
    }
    Some(kept.join(&b' '))
}

fn joined<'a>(lines: impl Iterator<Item = &'a [u8]>, last: bool) -> Vec<u8> {
    let mut script: Vec<u8> = lines.flat_map(|line| [line, b"\n"].concat()).collect();
    if !last {
        script.pop();
    }
    script
}

/// The script without some of its lines: with the lines that name what they made gone too and the
/// rest renumbered, and as it stands.
fn without(script: &[u8], start: usize, end: usize) -> [Vec<u8>; 2] {
    let lines = numbered(script);
    let last = script.ends_with(b"\n");
    let (cut, mut kept): (Vec<_>, Vec<_>) = lines
        .into_iter()
        .enumerate()
        .partition(|(at, _)| (start..end).contains(at));
    let plain = joined(kept.iter().map(|(_, line)| &line.bytes[..]), last);
    let gone: Vec<u32> = cut.iter().filter_map(|(_, line)| line.makes).collect();
    let fitted = |(at, line): (usize, Line)| {
        let bytes = renumbered(&line.bytes, &gone)?;
        Some((at, Line { bytes, ..line }))
    };
    kept = kept.into_iter().filter_map(fitted).collect();
    [
        joined(kept.iter().map(|(_, line)| &line.bytes[..]), last),
        plain,
    ]
}

/// So many shorter scripts are tried.
const TRIES: u32 = 5000;

/// A search for shorter scripts that differ alike.
struct Search<'a> {
    program: &'a dyn Program,
    kind: String,
    best: Shrunk,
    /// Tries left.
    left: u32,
}

impl Search<'_> {
    /// Takes a script if it shows the same kind of difference.
    fn take(&mut self, script: Vec<u8>) -> io::Result<bool> {
        if script.len() >= self.best.script.len() || self.left == 0 {
            return Ok(false);
        }
        self.left -= 1;
        match compared(self.program, &script)? {
            Some(difference) if difference.kind() == self.kind => {
                self.best = Shrunk { script, difference };
                Ok(true)
            }
            _ => Ok(false),
        }
    }

    fn count(&self) -> usize {
        heapscript::lines(&self.best.script).len()
    }

    /// Drops so many lines at once, from the end on.
    fn drop_lines(&mut self, piece: usize) -> io::Result<()> {
        let mut end = self.count();
        while end > 0 && self.left > 0 {
            let start = end.saturating_sub(piece);
            for shorter in without(&self.best.script, start, end) {
                if self.take(shorter)? {
                    break;
                }
            }
            end = start.min(self.count());
        }
        Ok(())
    }

    /// Drops so many bytes at once from within lines.
    fn drop_bytes(&mut self, piece: usize) -> io::Result<()> {
        let mut end = self.best.script.len();
        while end > 0 && self.left > 0 {
            let start = end.saturating_sub(piece);
            let mut shorter = self.best.script.clone();
            let cut: Vec<u8> = shorter.drain(start..end).collect();
            if !cut.contains(&b'\n') {
                self.take(shorter)?;
            }
            end = start;
        }
        Ok(())
    }
}

/// Drops lines, first many at a time, in the end one at a time, as long as the difference stays;
/// then bytes of lines. None if the script shows no difference at all.
///
/// # Errors
/// The program cannot be run.
pub fn shrunk(program: &dyn Program, script: &[u8]) -> io::Result<Option<Shrunk>> {
    let Some(difference) = compared(program, script)? else {
        return Ok(None);
    };
    let mut search = Search {
        program,
        kind: difference.kind(),
        best: Shrunk {
            script: script.to_vec(),
            difference,
        },
        left: TRIES,
    };
    let mut piece = search.count();
    loop {
        let before = search.best.script.len();
        search.drop_lines(piece)?;
        if piece > 1 {
            piece = piece.div_ceil(2);
            continue;
        }
        for bytes in [64, 16, 4, 1] {
            search.drop_bytes(bytes)?;
        }
        if search.best.script.len() == before {
            return Ok(Some(search.best));
        }
    }
}

/// A script as a shell writes it for `printf`.
#[must_use]
pub fn quoted(script: &[u8]) -> String {
    let mut text = String::from("'");
    for byte in script {
        match byte {
            b'\n' => text += "\\n",
            b'\\' => text += "\\\\",
            b'%' => text += "%%",
            b'\'' => text += "\\047",
            b' '..=b'~' => text.push(char::from(*byte)),
            odd => text += &format!("\\{odd:03o}"),
        }
    }
    text + "'"
}

/// The script line by line, then as one command, then what differs.
impl fmt::Display for Shrunk {
    fn fmt(&self, f: &mut fmt::Formatter<'_>) -> fmt::Result {
        for line in heapscript::lines(&self.script) {
            writeln!(f, "  {}", line.escape_ascii())?;
        }
        let printed = quoted(&self.script);
        writeln!(f, "printf {printed} | crates/heapscript/out/heapscript")?;
        self.difference.fmt(f)
    }
}
