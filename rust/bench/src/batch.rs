//! Short calls, timed in batches.

use crate::side::{Side, global};
use oracle::{TableRef, Value};
use timing::timed;

/// Calls of a batch that is timed, and batches of a round.
pub const BATCH: u32 = 200;
const BATCHES: u32 = 50;

/// Nanoseconds of one call, of many batches of a side; what is done before a batch is not timed.
pub fn batches<S: Side>(
    side: &mut S,
    mut before: impl FnMut(&mut S),
    mut call: impl FnMut(&mut S, u32),
) -> f64 {
    let mut sum = 0.0;
    for _ in 0..BATCHES {
        before(side);
        sum += timed(1, || (0..BATCH).for_each(|i| call(side, i)));
    }
    sum / f64::from(BATCH * BATCHES)
}

/// The same with nothing to be done between the batches.
pub fn batched<S: Side>(side: &mut S, call: impl FnMut(&mut S, u32)) -> f64 {
    batches(side, |_| {}, call)
}

/// A heap with room for a batch of every kind.
pub fn roomy<S: Side>() -> S {
    let tables = 2 + BATCH;
    S::new([2, tables, BATCH, BATCH, BATCH, BATCH, 1, BATCH, 0, 1])
}

/// The same with a row of tables behind the global one, each in the one before.
pub fn chained<S: Side>() -> S {
    let mut side: S = roomy();
    let mut last = global();
    for _ in 0..BATCH {
        let next = side.make_table(8, 8);
        side.table_set(last, 0, Value::Table(next));
        last = next;
    }
    side
}

/// The tables of that row.
pub fn chained_table(i: u32) -> TableRef {
    TableRef::new(2 + i, 0)
}
