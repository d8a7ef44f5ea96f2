//! Random heaps, each with a seed of its own, and what differs on one of them.

use crate::compare::{Difference, run};
use crate::shrink::{Maker, Shrunk, shrunk};
use crate::tally::Tally;
use heap::sizes::within;
use oracle::generate::{self, Generator};
use oracle::random::Random;
use oracle::{Command, Sizes};
use std::fmt;
use std::thread::panicking;

/// Commands on one heap; about a fifth of them are steps.
const LINES: u64 = 400;

/// Sizes by the seed: mostly those of the generator, small ones or ones somewhat longer than a
/// sweep step, else any within the ranges, up to the largest.
#[must_use]
pub fn sizes(seed: u64) -> Sizes {
    let mut random = Random::new(seed ^ 0x512e5);
    if random.below(8) == 0 {
        Sizes::from(within(&mut random))
    } else {
        generate::sizes(seed)
    }
}

/// A difference, with all that is needed to see it again.
#[derive(Clone, Debug)]
pub struct Report {
    pub seed: u64,
    pub sizes: Sizes,
    /// All commands up to the one that differs.
    pub script: Vec<Command>,
    pub difference: Difference,
    /// None if the same commands do not show it again.
    pub shrunk: Option<Shrunk>,
}

impl fmt::Display for Report {
    fn fmt(&self, f: &mut fmt::Formatter<'_>) -> fmt::Result {
        writeln!(f, "seed {}, {}", self.seed, self.difference)?;
        match &self.shrunk {
            Some(shrunk) => {
                let (few, all) = (shrunk.script.len(), self.script.len());
                write!(f, "shrunk from {all} commands to {few}:\n{shrunk}")
            }
            None => write!(f, "the same commands do not show it again"),
        }
    }
}

/// Says which heap it was, should anything panic on it: who compares, and the heap's seed.
pub struct Named(pub &'static str, pub u64);

impl Drop for Named {
    fn drop(&mut self) {
        if panicking() {
            eprintln!("{}: panicked on the heap of seed {}", self.0, self.1);
        }
    }
}

/// Compares so many steps on the heaps of this seed and the next ones. Answers how many heaps it
/// took.
///
/// # Errors
/// The first difference.
pub fn compared(seed: u64, steps: u64, engine: Maker) -> Result<(u64, Tally), Box<Report>> {
    let mut tally = Tally::default();
    let mut heaps = 0;
    while tally.total() < steps {
        let seed = seed.wrapping_add(heaps);
        let named = Named("steps", seed);
        let sizes = sizes(seed);
        let commands = Box::new(Generator::new(seed, LINES));
        let found = run(sizes, commands, engine(sizes), steps - tally.total());
        if let Some(difference) = found.difference {
            let script = found.script;
            let shrunk = shrunk(sizes, script.clone(), engine);
            return Err(Box::new(Report {
                seed,
                sizes,
                script,
                difference,
                shrunk,
            }));
        }
        tally.join(&found.tally);
        heaps += 1;
        drop(named);
    }
    Ok((heaps, tally))
}
