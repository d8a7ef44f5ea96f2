//! Random operations on both arenas, and the sweep from every position with every count.

use crate::{Operation, Pair};
use oracle::random::Random;

/// Makes `operations` random operations on arenas of random sizes. An error names the seed, the
/// arena's size and the operations up to the one that differs.
pub fn random(seed: u64, operations: u64) -> Result<u64, String> {
    let mut random = Random::new(seed);
    let mut made = 0;
    while made < operations {
        let slots = random.below(200) as usize + 1;
        let length = 2000.min(operations - made);
        one_arena(&mut random, slots, length).map_err(|e| format!("seed {seed}: {e}"))?;
        made += length;
    }
    Ok(made)
}

fn one_arena(random: &mut Random, slots: usize, length: u64) -> Result<(), String> {
    let mut pair = Pair::new(slots);
    let mut said = Vec::new();
    for _ in 0..length {
        let operation = choose(random, &pair);
        said.push(operation.to_string());
        pair.apply(operation)
            .map_err(|e| format!("{slots} slots, after {}: {e}", said.join(", ")))?;
    }
    Ok(())
}

/// A handle of a slot below the fresh index or just past it, mostly of its generation.
fn handle(random: &mut Random, pair: &Pair) -> (u32, u32) {
    let index = random.below(pair.source.fresh() + 2);
    let generation = if index < pair.source.fresh() {
        pair.source.slot(index as usize).0
    } else {
        0
    };
    let old = random.below(8) == 0;
    (index, generation.wrapping_sub(u32::from(old)))
}

fn colour(random: &mut Random) -> u32 {
    1 + random.below(4)
}

/// A random operation that fits the state of both.
pub fn choose(random: &mut Random, pair: &Pair) -> Operation {
    match random.below(10) {
        0..=3 => Operation::Take {
            colour: colour(random),
        },
        4..=5 => {
            let (index, generation) = handle(random, pair);
            Operation::Free { index, generation }
        }
        6..=8 => {
            let (index, generation) = handle(random, pair);
            Operation::Paint {
                index,
                generation,
                colour: colour(random),
            }
        }
        _ => {
            let dead = 1 + random.below(2);
            Operation::Sweep {
                dead,
                white: 3 - dead,
                start: random.below(pair.source.fresh() + 3),
                most: random.below(100),
            }
        }
    }
}

/// Sweeps arenas of up to `slots` slots, in every pattern that one seed gives, from every position
/// with every count.
pub fn every_sweep(seed: u64, slots: usize) -> Result<u64, String> {
    let mut random = Random::new(seed);
    let mut made = 0;
    for n in 0..=slots {
        for start in 0..=n as u32 + 1 {
            for most in 0..=n as u32 + 1 {
                let mut pair = Pair::new(n);
                scatter(&mut random, &mut pair, n)?;
                let dead = 1 + random.below(2);
                let sweep = Operation::Sweep {
                    dead,
                    white: 3 - dead,
                    start,
                    most,
                };
                pair.apply(sweep).map_err(|e| format!("{n} slots: {e}"))?;
                made += 1;
            }
        }
    }
    Ok(made)
}

/// Takes all slots in random colours and frees some.
fn scatter(random: &mut Random, pair: &mut Pair, n: usize) -> Result<(), String> {
    for _ in 0..n {
        let colour = colour(random);
        pair.apply(Operation::Take { colour })?;
    }
    for index in 0..n as u32 {
        if random.below(4) == 0 {
            pair.apply(Operation::Free {
                index,
                generation: 0,
            })?;
        }
    }
    Ok(())
}
