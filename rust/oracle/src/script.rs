//! Scripts: a command on each line, an answer for each command.

use crate::answer::Answer;
use crate::command::Command;
use crate::driver::Driver;
use crate::heap::Oracle;
use crate::sizes::Sizes;
use std::cell::RefCell;
use std::io::{self, BufRead, Write};
use std::rc::Rc;

/// A script that is being read, and where its answers go.
pub struct Script<R, W> {
    input: R,
    output: W,
    /// The number of the last line read, from 1.
    line: u64,
    /// A command already read.
    waiting: Option<Command>,
    /// The first trouble with input or output; it ends the script.
    trouble: Option<io::Error>,
}

/// A line of the script.
enum Line {
    Sizes(Result<Sizes, String>),
    Command(Command),
}

impl<R: BufRead, W: Write> Script<R, W> {
    pub const fn new(input: R, output: W) -> Self {
        Self {
            input,
            output,
            line: 0,
            waiting: None,
            trouble: None,
        }
    }

    /// The next line that is no comment, without its end.
    fn text(&mut self) -> Option<String> {
        loop {
            let mut bytes = Vec::new();
            match self.input.read_until(b'\n', &mut bytes) {
                Ok(0) => return None,
                Ok(_) => self.line += 1,
                Err(error) => {
                    self.trouble.get_or_insert(error);
                    return None;
                }
            }
            let text = String::from_utf8_lossy(&bytes).trim().to_owned();
            if !text.is_empty() && !text.starts_with('#') {
                return Some(text);
            }
        }
    }

    fn print(&mut self, text: &str) {
        if let Err(error) = writeln!(self.output, "{text}") {
            self.trouble.get_or_insert(error);
        }
    }

    fn complain(&mut self, why: &str) {
        self.print(&format!("line {}: {why}", self.line));
    }

    /// The next line that says something; what it does not know it says so.
    fn read(&mut self) -> Option<Line> {
        while self.trouble.is_none() {
            let text = self.text()?;
            let mut words = text.split_whitespace();
            if words.next() == Some("sizes") {
                return Some(Line::Sizes(read_sizes(words)));
            }
            match Command::parse(&text) {
                Ok(command) => return Some(Line::Command(command)),
                Err(why) => self.complain(&why),
            }
        }
        None
    }

    /// The sizes, if the first command gives them; wrong ones leave the default.
    fn sizes(&mut self) -> Sizes {
        match self.read() {
            Some(Line::Sizes(Ok(sizes))) if sizes.test().is_ok() => {
                self.print("done");
                return sizes;
            }
            Some(Line::Sizes(Ok(_))) => self.print("refused 4"),
            Some(Line::Sizes(Err(why))) => self.complain(&why),
            Some(Line::Command(command)) => self.waiting = Some(command),
            None => {}
        }
        Sizes::default()
    }
}

/// Ten numbers.
fn read_sizes<'a>(words: impl Iterator<Item = &'a str>) -> Result<Sizes, String> {
    let all: Option<Vec<u32>> = words.map(|n| n.parse().ok()).collect();
    let ten: Option<[u32; 10]> = all.and_then(|n| n.try_into().ok());
    ten.map(Sizes::from)
        .ok_or_else(|| "wrong arguments: sizes: ten numbers wanted".to_owned())
}

impl<R: BufRead, W: Write> Driver for Script<R, W> {
    fn next(&mut self, _heap: &Oracle) -> Option<Command> {
        if let Some(command) = self.waiting.take() {
            return Some(command);
        }
        loop {
            match self.read()? {
                Line::Command(command) => return Some(command),
                Line::Sizes(_) => self.complain("sizes may only be the first command"),
            }
        }
    }

    fn answer(&mut self, _heap: &Oracle, answer: &Answer) {
        self.print(&answer.to_string());
    }
}

/// Runs a script to its end and gives its output back.
///
/// # Errors
/// The first trouble with input or output.
pub fn run<R: BufRead + 'static, W: Write + 'static>(input: R, output: W) -> io::Result<W> {
    let mut script = Script::new(input, output);
    let sizes = script.sizes();
    let script = Rc::new(RefCell::new(script));
    let driver: Rc<RefCell<dyn Driver>> = script.clone();
    if let Ok(mut heap) = Oracle::with_driver(sizes, driver) {
        heap.run();
    }
    let script = Rc::into_inner(script).map(RefCell::into_inner);
    let Some(mut script) = script else {
        return Err(io::Error::other("the script is still in use"));
    };
    script.output.flush()?;
    match script.trouble {
        Some(error) => Err(error),
        None => Ok(script.output),
    }
}

/// The answers of a script, as text.
///
/// # Errors
/// None in practice: memory has no trouble.
pub fn answers(script: &str) -> io::Result<String> {
    let input = io::Cursor::new(script.as_bytes().to_vec());
    let output = run(input, Vec::new())?;
    Ok(String::from_utf8_lossy(&output).into_owned())
}
