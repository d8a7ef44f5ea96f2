//! Fewer commands that show the same difference.

use crate::compare::{Difference, Run, run};
use crate::engine::Engine;
use oracle::{Answer, Command, Driver, Oracle, Sizes};
use std::fmt;

/// Makes an engine for a heap of these sizes.
pub type Maker<'a> = &'a dyn Fn(Sizes) -> Box<dyn Engine>;

/// A script that ends with a difference.
#[derive(Clone, Debug, PartialEq)]
pub struct Shrunk {
    pub sizes: Sizes,
    pub script: Vec<Command>,
    pub difference: Difference,
}

/// A script as the oracle reads it; what differs stands at its end as a comment.
impl fmt::Display for Shrunk {
    fn fmt(&self, f: &mut fmt::Formatter<'_>) -> fmt::Result {
        let sizes = <[u32; 10]>::from(self.sizes).map(|n| n.to_string());
        writeln!(f, "sizes {}", sizes.join(" "))?;
        for command in &self.script {
            writeln!(f, "{command}")?;
        }
        let comment = self.difference.to_string().replace('\n', "\n# ");
        write!(f, "# {comment}")
    }
}

/// Commands from a list.
struct Listed(std::vec::IntoIter<Command>);

impl Driver for Listed {
    fn next(&mut self, _: &Oracle) -> Option<Command> {
        self.0.next()
    }

    fn answer(&mut self, _: &Oracle, _: &Answer) {}
}

/// A list of commands as a driver.
#[must_use]
pub fn listed(script: Vec<Command>) -> Box<dyn Driver> {
    Box::new(Listed(script.into_iter()))
}

/// What came of a list of commands: those given, and how the last of them differs.
pub type Outcome = (Vec<Command>, Option<Difference>);

/// Runs a list of commands on a new heap of these sizes and compares.
pub type Replay<'a> = &'a dyn Fn(Sizes, Vec<Command>) -> Outcome;

/// Runs a list of commands on a new heap and compares every step.
#[must_use]
pub fn replayed(sizes: Sizes, script: Vec<Command>, engine: Maker) -> Run {
    run(sizes, listed(script), engine(sizes), u64::MAX)
}

/// The difference that this script shows, if it shows one: the script up to there.
fn shown(sizes: Sizes, script: Vec<Command>, replay: Replay) -> Option<Shrunk> {
    let (script, difference) = replay(sizes, script);
    Some(Shrunk {
        sizes,
        script,
        difference: difference?,
    })
}

/// The same if it is of this kind.
fn shows(kind: &str, sizes: Sizes, script: Vec<Command>, replay: Replay) -> Option<Shrunk> {
    shown(sizes, script, replay).filter(|shrunk| shrunk.difference.kind() == kind)
}

/// The same with sizes no larger than what was used, if the difference stays.
fn narrowed(kind: &str, shrunk: Shrunk, replay: Replay) -> Shrunk {
    let used = shrunk.difference.used;
    shows(kind, used, shrunk.script.clone(), replay).unwrap_or(shrunk)
}

/// Drops commands, first many at a time, in the end one at a time, as long as the difference stays.
/// None if the script shows no difference at all.
#[must_use]
pub fn shrunk_by(sizes: Sizes, script: Vec<Command>, replay: Replay) -> Option<Shrunk> {
    let first = shown(sizes, script, replay)?;
    let kind = first.difference.kind();
    let mut best = narrowed(&kind, first, replay);
    let mut piece = best.script.len();
    loop {
        let before = best.script.len();
        let mut end = before;
        while end > 0 {
            let start = end.saturating_sub(piece);
            let mut fewer = best.script.clone();
            fewer.drain(start..end);
            if let Some(shorter) = shows(&kind, best.sizes, fewer, replay) {
                best = shorter;
            }
            end = start.min(best.script.len());
        }
        if piece <= 1 && best.script.len() == before {
            return Some(narrowed(&kind, best, replay));
        }
        piece = piece.div_ceil(2);
    }
}

/// The same for the steps of an engine.
#[must_use]
pub fn shrunk(sizes: Sizes, script: Vec<Command>, engine: Maker) -> Option<Shrunk> {
    let replay = |sizes, script| {
        let run = replayed(sizes, script, engine);
        (run.script, run.difference)
    };
    shrunk_by(sizes, script, &replay)
}
