//! The fixed list: operations, and the source's answer and state after each, as the program
//! `arena_replay` prints them. Only the source is asked; ours replays the list with no Rust at hand.

use crate::{Operation, Pair, run};
use oracle::random::Random;

/// How many slots the replaying program's arena has.
pub const SLOTS: usize = 24;

/// Operations on an arena of [`SLOTS`] slots, and what the program has to print for them.
pub struct List {
    pub operations: String,
    pub answers: String,
}

/// Makes the list of one seed. The colours of sweeps turn as a collector's do; bursts fill the
/// arena, so that it is also found full.
pub fn made(seed: u64, length: usize) -> Result<List, String> {
    let mut random = Random::new(seed);
    let mut pair = Pair::new(SLOTS);
    let mut list = List {
        operations: String::new(),
        answers: String::new(),
    };
    for turn in 0..length {
        let burst = turn % 60 < 30;
        let operation = if burst && random.below(2) == 0 {
            Operation::Take {
                colour: 1 + random.below(4),
            }
        } else {
            run::choose(&mut random, &pair)
        };
        let answer = pair.apply(operation)?;
        list.operations += &format!("{operation}\n");
        list.answers += &format!("{answer}{}\n", state(&pair));
    }
    Ok(list)
}

fn state(pair: &Pair) -> String {
    let source = &pair.source;
    let chain: String = source.chain().map(|i| format!(" {i}")).collect();
    let slots: String = (0..source.fresh() as usize)
        .map(|i| source.slot(i))
        .map(|(generation, colour, _)| format!(" {generation}:{colour}"))
        .collect();
    format!(", count {}, chain{chain}, slots{slots}", source.count())
}
