//! The rules of the program `heapscript`, read a second time: its lines over the source's collector.
//!
//! Nothing here is taken from the program: the lines are read as document 01 says and given to the
//! oracle's calls, so that what both print can be compared, to the byte.
//!
//! ```
//! let printed = oracle::heapscript::printed(b"str ab\nstr cd\npush 1\ncollect\n");
//! assert_eq!(printed, "1 str 2 0\n2 str 3 0\nfreed 1 0 0 0 0 0\n");
//! ```

pub mod generate;
mod line;

use crate::answer::{Answer, RANGE, Refusal, Step, ensure};
use crate::command::Command;
use crate::driver::Driver;
use crate::heap::Oracle;
use crate::refs::{TableRef, UdRef};
use crate::sizes::Sizes;
use crate::value::Value;
use line::Line;
use std::cell::RefCell;
use std::io::{self, BufRead, Write};
use std::rc::Rc;

/// The heap: 16 strings, tables and userdata, main stack 32, one frame, nothing else.
pub const SIZES: [u32; 10] = [16, 16, 0, 0, 16, 0, 0, 32, 0, 1];

/// So many objects get a number, a string found again too.
pub const NUMBERS: usize = 4096;

/// A script under way.
pub struct Play {
    heap: Oracle,
    /// What the numbers from 1 on name.
    made: Vec<Value>,
    finals: Rc<RefCell<Finals>>,
    /// The lines so far.
    line: u64,
}

/// Lets every finalizer succeed and keeps whose it was.
#[derive(Default)]
struct Finals(Vec<UdRef>);

impl Driver for Finals {
    fn next(&mut self, _: &Oracle) -> Option<Command> {
        Some(Command::Finish { ok: true })
    }

    fn answer(&mut self, _: &Oracle, answer: &Answer) {
        if let Answer::Step(Step::Handed(userdata, _)) = answer {
            self.0.push(*userdata);
        }
    }
}

impl Default for Play {
    fn default() -> Self {
        Self::new()
    }
}

impl Play {
    /// A script before its first line.
    ///
    /// # Panics
    /// Never: the sizes lie in their ranges.
    #[must_use]
    pub fn new() -> Self {
        let finals = Rc::new(RefCell::new(Finals::default()));
        let driver: Rc<RefCell<dyn Driver>> = finals.clone();
        let heap = Oracle::with_driver(Sizes::from(SIZES), driver);
        Self {
            heap: heap.expect("the sizes lie in their ranges"),
            made: Vec::new(),
            finals,
            line: 0,
        }
    }

    /// The heap as it is now.
    #[must_use]
    pub const fn heap(&self) -> &Oracle {
        &self.heap
    }

    /// What the numbers from 1 on name; some name nothing any more.
    #[must_use]
    pub fn made(&self) -> &[Value] {
        &self.made
    }

    /// Plays the next line, given without its end: all that it prints.
    pub fn line(&mut self, line: &[u8]) -> String {
        self.line += 1;
        let answer = match line::read(line) {
            Some(line) => self.call(line),
            None => Err(Refusal(RANGE)),
        };
        answer.unwrap_or_else(|refusal| format!("line {} {refusal}\n", self.line))
    }

    /// What a line names is looked up before the heap is asked, so the script's 4 comes first.
    fn call(&mut self, line: Line) -> Result<String, Refusal> {
        match line {
            Line::Str(text) => self.number(|heap| heap.make_string(text.to_vec()).map(Value::Str)),
            Line::Tab(array, nodes) => {
                self.number(|heap| heap.make_table(array, nodes).map(Value::Table))
            }
            Line::Ud => self.number(|heap| heap.make_userdata().map(Value::Userdata)),
            Line::Push(k) => silent(self.heap.push(self.value(k)?)),
            Line::Pop => silent(self.heap.pop().map(drop)),
            Line::Seti(t, i, k) => {
                let (t, v) = (self.table(t)?, self.value(k)?);
                silent(self.heap.table_set(t, i, v))
            }
            Line::Setn(t, j, k, v) => {
                let (t, k, v) = (self.table(t)?, self.value(k)?, self.value(v)?);
                silent(self.heap.table_set_node(t, j, k, v))
            }
            Line::Meta(k, t) => self.meta(k, t),
            Line::Collect => Ok(self.collect()),
        }
    }

    /// Makes an object, or finds a string again, under the next number.
    fn number(
        &mut self,
        make: impl FnOnce(&mut Oracle) -> Result<Value, Refusal>,
    ) -> Result<String, Refusal> {
        ensure(self.made.len() < NUMBERS, RANGE)?;
        let made = make(&mut self.heap)?;
        self.made.push(made);
        let (kind, slot, generation) = match made {
            Value::Str(r) => ("str", r.index, r.generation),
            Value::Table(r) => ("tab", r.index, r.generation),
            Value::Userdata(r) => ("ud", r.index, r.generation),
            other => unreachable!("no line makes {other}"),
        };
        let number = self.made.len();
        Ok(format!("{number} {kind} {slot} {generation}\n"))
    }

    /// The object of a number, nil for 0.
    fn value(&self, number: u32) -> Result<Value, Refusal> {
        match (number as usize).checked_sub(1) {
            None => Ok(Value::Nil),
            Some(place) => self.made.get(place).copied().ok_or(Refusal(RANGE)),
        }
    }

    fn table(&self, number: u32) -> Result<TableRef, Refusal> {
        match self.value(number)? {
            Value::Table(t) => Ok(t),
            _ => Err(Refusal(RANGE)),
        }
    }

    /// Gives a table or userdata a metatable, or none for 0.
    fn meta(&mut self, owner: u32, meta: u32) -> Result<String, Refusal> {
        let owner = self.value(owner)?;
        let meta = match meta {
            0 => None,
            number => Some(self.table(number)?),
        };
        match owner {
            Value::Table(t) => silent(self.heap.table_set_meta(t, meta)),
            Value::Userdata(d) => silent(self.heap.ud_set_meta(d, meta)),
            _ => Err(Refusal(RANGE)),
        }
    }

    /// A full collection: the finalizers as they were handed out, then what was freed.
    fn collect(&mut self) -> String {
        let before = self.occupied();
        self.heap.full_gc();
        let finals = std::mem::take(&mut self.finals.borrow_mut().0);
        let mut text = String::new();
        for userdata in finals {
            text += &format!("final {} {}\n", userdata.index, userdata.generation);
        }
        text += "freed";
        for (before, after) in before.into_iter().zip(self.occupied()) {
            text += &format!(" {}", before - after);
        }
        text + "\n"
    }

    /// The occupied slots of each arena, in sweep order.
    fn occupied(&self) -> [u32; 6] {
        let gc = &self.heap.state.gc;
        [
            gc.string_arena.len(),
            gc.tables.len(),
            gc.closures.len(),
            gc.upvalues.len(),
            gc.userdata.len(),
            gc.threads.len(),
        ]
    }
}

/// A served line that prints nothing.
fn silent(answer: Result<(), Refusal>) -> Result<String, Refusal> {
    answer.map(|()| String::new())
}

/// The lines of a script. A newline ends a line; the last line may lack it.
#[must_use]
pub fn lines(script: &[u8]) -> Vec<&[u8]> {
    let ended = script.strip_suffix(b"\n").unwrap_or(script);
    if script.is_empty() {
        return Vec::new();
    }
    ended.split(|byte| *byte == b'\n').collect()
}

/// All that a script prints.
#[must_use]
pub fn printed(script: &[u8]) -> String {
    let mut play = Play::new();
    lines(script).into_iter().map(|l| play.line(l)).collect()
}

/// Plays a script from its input, line by line.
///
/// # Errors
/// The first trouble with input or output.
pub fn run(mut input: impl BufRead, mut output: impl Write) -> io::Result<()> {
    let mut play = Play::new();
    let mut line = Vec::new();
    while input.read_until(b'\n', &mut line)? > 0 {
        let text = play.line(line.strip_suffix(b"\n").unwrap_or(&line));
        output.write_all(text.as_bytes())?;
        line.clear();
    }
    output.flush()
}
