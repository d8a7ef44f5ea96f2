//! Commands with one number bent to an edge: places, sizes, and the two numbers of a handle. What a
//! generator makes up is mostly sound and its handles were answered before; this goes further out.

use oracle::random::Random;
use oracle::{Answer, Command, Driver, Oracle};

/// How often, in a hundred, a command is bent.
const SHARE: u32 = 5;

/// Numbers next to the ends of sizes, counts and words.
pub const EDGES: &[u32] = &[
    0,
    1,
    2,
    7,
    8,
    9,
    15,
    16,
    17,
    31,
    32,
    33,
    63,
    64,
    65,
    79,
    80,
    81,
    127,
    128,
    255,
    256,
    257,
    4095,
    4096,
    1 << 16,
    (1 << 31) - 1,
    1 << 31,
    u32::MAX - 1,
    u32::MAX,
];

/// A driver whose commands are sometimes bent.
pub struct Bent<D> {
    pub commands: D,
    pub random: Random,
}

/// The places of the numbers in a command's text.
fn numbers(text: &str) -> Vec<(usize, usize)> {
    let mut found = Vec::new();
    let mut start = None;
    for (i, c) in text.char_indices().chain([(text.len(), ' ')]) {
        match start {
            None if c.is_ascii_digit() => start = Some(i),
            Some(from) if !c.is_ascii_digit() => {
                found.push((from, i));
                start = None;
            }
            _ => {}
        }
    }
    found
}

/// The command with another number somewhere; none if that is no command.
fn bent(random: &mut Random, command: &Command) -> Option<Command> {
    let text = command.to_string();
    let (from, to) = random.pick(&numbers(&text))?;
    let edge = random.pick(EDGES)?;
    Command::parse(&format!("{}{edge}{}", &text[..from], &text[to..])).ok()
}

impl<D: Driver> Driver for Bent<D> {
    fn next(&mut self, heap: &Oracle) -> Option<Command> {
        let command = self.commands.next(heap)?;
        let other = self
            .random
            .percent(SHARE)
            .then(|| bent(&mut self.random, &command));
        Some(other.flatten().unwrap_or(command))
    }

    fn answer(&mut self, heap: &Oracle, answer: &Answer) {
        self.commands.answer(heap, answer);
    }
}
