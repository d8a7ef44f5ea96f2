//! Full collections of the same graph in three sizes and three states.

use crate::graph::{Graph, Kinds, State};
use crate::run::{Run, both};

/// Slots of an arena, each number with its name.
const SLOTS: [(u32, &str); 3] = [(64, "64"), (512, "512"), (4096, "4,096")];

fn collections(run: &Run, kinds: Kinds, what: &str) {
    for (slots, number) in SLOTS {
        for state in State::ALL {
            let name = format!("{number} slots, {}", state.name());
            let repeats = 4096 / slots;
            both!(run, &name, what, S => Graph::<S>::new(slots, kinds, state), |graph| {
                Graph::collect(graph, repeats)
            });
        }
    }
}

pub fn tables(run: &Run) {
    let what =
        "full_gc of tables with 8 places and 8 nodes; the dead ones are made again before it";
    collections(run, Kinds::Tables, what);
}

pub fn rows(run: &Run) {
    let what = "full_gc with every arena full; the dead ones are made again before it";
    collections(run, Kinds::All, what);
}
