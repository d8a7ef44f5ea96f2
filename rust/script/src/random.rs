//! Random scripts, each with a seed of its own.

use crate::compare::{Difference, compared};
use crate::program::Program;
use crate::shrink::{Shrunk, shrunk};
use crate::tally::Tally;
use oracle::heapscript::{self, generate};
use std::fmt;
use std::io;

/// Lines of each script.
pub const LINES: usize = 200;

/// A difference on a random script, with all that is needed to see it again.
#[derive(Clone, Debug, PartialEq, Eq)]
pub struct Report {
    pub seed: u64,
    pub difference: Difference,
    /// None if the same script does not show it again.
    pub shrunk: Option<Shrunk>,
}

impl fmt::Display for Report {
    fn fmt(&self, f: &mut fmt::Formatter<'_>) -> fmt::Result {
        writeln!(f, "seed {}: {}", self.seed, self.difference)?;
        let Some(shrunk) = &self.shrunk else {
            return f.write_str("the same script does not show it again");
        };
        let few = heapscript::lines(&shrunk.script).len();
        write!(f, "shrunk from {LINES} lines to {few}:\n{shrunk}")
    }
}

/// Compares so many scripts, of this seed and the next ones.
///
/// # Errors
/// The program cannot be run.
pub fn scripts(
    program: &dyn Program,
    count: u64,
    seed: u64,
) -> io::Result<Result<Tally, Box<Report>>> {
    let mut tally = Tally::default();
    for seed in (0..count).map(|n| seed.wrapping_add(n)) {
        let script = generate::script(seed, LINES);
        if let Some(difference) = compared(program, &script)? {
            let shrunk = shrunk(program, &script)?;
            return Ok(Err(Box::new(Report {
                seed,
                difference,
                shrunk,
            })));
        }
        tally.add(LINES, &heapscript::printed(&script));
    }
    Ok(Ok(tally))
}

/// Compares the one script that makes more objects than there are numbers.
///
/// # Errors
/// The program cannot be run.
pub fn every_number(program: &dyn Program) -> io::Result<Option<Difference>> {
    compared(program, &generate::every_number())
}
