//! Random heaps, each with a seed of its own, and what differs on one of them.

use crate::bend::Bent;
use crate::compare::{How, replayed, run};
use crate::tally::Tally;
use heap::sizes::{SMALLEST, within};
use oracle::Sizes;
use oracle::generate::Generator;
use oracle::random::Random;
use steps::heaps::{Named, Report};
use steps::shrink::shrunk_by;

/// The sizes of one heap, and how many commands it gets.
#[derive(Clone, Copy, Debug)]
pub struct Chosen {
    pub sizes: Sizes,
    pub lines: u64,
}

/// Small arenas that fill up. What has short records may be longer than a sweep step.
fn small(random: &mut Random) -> [u32; 10] {
    let long = random.below(4) == 0;
    let mut most = |few: u32| random.below(if long { 100 } else { few });
    let [strings, upvalues, userdata] = [most(24), most(12), most(12)];
    [
        2 + strings,
        2 + random.below(20),
        random.below(12),
        upvalues,
        userdata,
        random.below(6),
        random.below(10),
        random.below(12),
        random.below(6),
        1 + random.below(4),
    ]
}

/// Which heaps are wanted.
#[derive(Clone, Copy, Debug, PartialEq, Eq)]
pub enum Which {
    /// Nearly always small ones, sometimes one of the others.
    Any,
    /// Small arenas, which fill up and are quickly compared.
    Small,
    /// No slot but those of the new heap.
    Smallest,
    /// Arenas longer than a sweep step.
    Long,
    /// Any sizes within their ranges, often at an end, up to the largest.
    Ends,
}

impl Which {
    /// All of them by their names.
    pub const NAMES: [(&str, Self); 5] = [
        ("any", Self::Any),
        ("small", Self::Small),
        ("smallest", Self::Smallest),
        ("long", Self::Long),
        ("ends", Self::Ends),
    ];

    /// The kind of a heap by chance.
    fn one(self, random: &mut Random) -> Self {
        match (self, random.below(1000)) {
            (Self::Any, 0..3) => Self::Ends,
            (Self::Any, 3..13) => Self::Long,
            (Self::Any, 13..40) => Self::Smallest,
            (Self::Any, _) => Self::Small,
            (which, _) => which,
        }
    }
}

/// Sizes by the seed.
#[must_use]
pub fn chosen(which: Which, seed: u64) -> Chosen {
    let mut random = Random::new(seed ^ 0xca11);
    let (sizes, lines) = match which.one(&mut random) {
        Which::Ends => (within(&mut random), 100),
        Which::Long => (Sizes::default().into(), 1000),
        Which::Smallest => (SMALLEST, 200),
        Which::Small | Which::Any => (small(&mut random), 600),
    };
    Chosen {
        sizes: Sizes::from(sizes),
        lines,
    }
}

/// Compares so many calls on the heaps of this seed and the next ones. Answers how many heaps it
/// took. Of docs/DIFFERENCES.md no call on a heap shows any: so whatever differs is a fault.
///
/// # Errors
/// The first difference.
pub fn compared(
    which: Which,
    seed: u64,
    calls: u64,
    how: How,
) -> Result<(u64, Tally), Box<Report>> {
    let mut tally = Tally::default();
    let mut heaps = 0;
    while tally.total() < calls {
        let seed = seed.wrapping_add(heaps);
        let named = Named("calls", seed);
        let Chosen { sizes, lines } = chosen(which, seed);
        let commands = Box::new(Bent {
            commands: Generator::new(seed, lines),
            random: Random::new(seed ^ 0xbe27),
        });
        let most = calls - tally.total();
        let found = run(sizes, commands, How { most, ..how });
        if let Some(difference) = found.difference {
            let script = found.script;
            let replay = |sizes, script| {
                let run = replayed(sizes, script, how);
                (run.script, run.difference)
            };
            let shrunk = shrunk_by(sizes, script.clone(), &replay);
            return Err(Box::new(Report {
                seed,
                sizes,
                script,
                difference,
                shrunk,
            }));
        }
        tally.join(&found.tally);
        heaps += 1;
        drop(named);
    }
    Ok((heaps, tally))
}
