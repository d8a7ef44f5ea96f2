//! Budgeted steps.

use crate::graph::{Graph, State};
use crate::rows::phases::{SLOTS, tables};
use crate::run::{Run, both};
use crate::side::Side;
use oracle::Phase;
use timing::timed;

/// The budget of an automatic step with the settings of a new heap.
pub const BUDGET: i64 = 2000;

/// A whole cycle by budgeted steps: nanoseconds of one.
fn cycle<S: Side>(graph: &mut Graph<S>) -> f64 {
    let side = &mut graph.side;
    side.go_to(Phase::Pause);
    let mut steps = 0;
    let time = timed(1, || {
        side.budgeted(BUDGET);
        steps = 1;
        while !side.is_at(Phase::Pause) {
            side.budgeted(BUDGET);
            steps += 1;
        }
    });
    time / f64::from(steps)
}

/// Propagation of all tables by one step that has just the budget for it.
fn at_once<S: Side>(graph: &mut Graph<S>) -> f64 {
    // What each table costs, and the main thread: its one frame and no stack.
    const COST: i64 = SLOTS as i64 * (64 + 8 * 16 + 8 * 32) + 256 + 40;
    let side = &mut graph.side;
    side.go_to(Phase::Pause);
    let time = timed(1, || side.budgeted(COST));
    assert!(side.is_at(Phase::Propagate), "before the atomic step");
    time
}

pub fn rows(run: &Run) {
    let what = "one step of a whole cycle of 4,096 live tables of 8 places and 8 nodes";
    both!(run, "budget 2,000", what, S => tables::<S>(State::Live), cycle);
    let what = "the same tables propagated by one step that has the budget for all";
    both!(run, "propagate 4,096 tables at once", what, S => tables::<S>(State::Live), at_once);
}
