//! Making each kind. What was made is collected again between the batches.

use crate::batch::{BATCH, batches, roomy};
use crate::run::{Run, both};
use crate::side::{Ours, Side, global};
use heap::needed;
use heap::sizes::SMALLEST;
use oracle::{UpvalRef, Value};
use std::hint::black_box;
use timing::timed;

/// Upvalues or values of a closure, constants of a prototype.
const LISTED: usize = 4;

fn tables<S: Side>(side: &mut S, size: u32) -> f64 {
    batches(side, S::full, |side, _| {
        _ = black_box(side.make_table(size, size))
    })
}

fn constants<S: Side>() -> S::Values {
    S::values(&[Value::Table(global()); LISTED])
}

/// A heap with one prototype and four upvalues that stay.
fn with_proto<S: Side>() -> (S, S::Upvalues) {
    let mut side = S::new([2, 2, BATCH, LISTED as u32, 0, 0, 1, 0, LISTED as u32, 1]);
    side.make_proto(&constants::<S>());
    let upvalues: [UpvalRef; LISTED] = std::array::from_fn(|_| {
        let made = side.make_open_upvalue();
        side.open_push(made);
        made
    });
    (side, S::upvalues(&upvalues))
}

fn lua_closures<S: Side>((side, upvalues): &mut (S, S::Upvalues)) -> f64 {
    batches(side, S::full, |side, _| {
        black_box(side.make_lua_closure(0, upvalues));
    })
}

fn rust_closures<S: Side>(side: &mut S) -> f64 {
    let values = constants::<S>();
    batches(side, S::full, |side, _| {
        _ = black_box(side.make_rust_closure(&values))
    })
}

fn open_upvalues<S: Side>(side: &mut S) -> f64 {
    batches(side, S::full, |side, _| {
        _ = black_box(side.make_open_upvalue())
    })
}

fn closed_upvalues<S: Side>(side: &mut S) -> f64 {
    let v = Value::Table(global());
    batches(side, S::full, |side, _| {
        _ = black_box(side.make_closed_upvalue(v))
    })
}

fn userdata<S: Side>(side: &mut S) -> f64 {
    batches(side, S::full, |side, _| _ = black_box(side.make_userdata()))
}

fn threads<S: Side>(side: &mut S) -> f64 {
    batches(side, S::full, |side, _| {
        _ = black_box(side.make_thread(global(), 16))
    })
}

/// Prototypes stay for ever: each batch has a heap of its own.
fn prototypes<S: Side>() -> f64 {
    const HEAPS: u32 = 20;
    let constants = constants::<S>();
    let mut sum = 0.0;
    for _ in 0..HEAPS {
        let mut side = S::new([2, 2, 0, 0, 0, 0, BATCH, 0, 0, 1]);
        sum += timed(1, || {
            (0..BATCH).for_each(|_| _ = black_box(side.make_proto(&constants)));
        });
    }
    sum / f64::from(BATCH * HEAPS)
}

/// A whole heap, ours alone: the source's lies in many allocations and has no such call.
fn heaps(run: &Run) {
    const REPEATS: u32 = 10_000;
    let mut heap = Ours::new(SMALLEST).calls.heap;
    let what = "make_heap with the smallest sizes, which zeroes both buffers";
    run.alone("the smallest heap", what, || {
        timed(REPEATS, || {
            _ = black_box(heap.make_heap(black_box(&SMALLEST)));
        })
    });
    let what = "its sizes tested and laid out (`needed`)";
    run.alone("of this: sizes and layout", what, || {
        timed(REPEATS, || _ = black_box(needed(black_box(&SMALLEST))))
    });
    run.alone(
        "of this: zeroing",
        "as many words and bytes filled with 0",
        || {
            timed(REPEATS, || {
                black_box(&mut heap.words).fill(0);
                black_box(&mut heap.bytes).fill(0);
            })
        },
    );
}

pub fn rows(run: &Run) {
    let what = "make_table with no place and no node";
    both!(run, "empty table", what, S => roomy::<S>(), |side| tables(side, 0));
    let what = "make_table with 8 array places and 8 nodes, all nil";
    both!(run, "table of 8 and 8", what, S => roomy::<S>(), |side| tables(side, 8));
    let what = "of one prototype, with four upvalues";
    both!(run, "Lua closure", what, S => with_proto::<S>(), lua_closures);
    both!(run, "Rust closure", "with four values", S => roomy::<S>(), rust_closures);
    both!(run, "open upvalue", "make_open_upvalue", S => roomy::<S>(), open_upvalues);
    let what = "closed over a table";
    both!(run, "closed upvalue", what, S => roomy::<S>(), closed_upvalues);
    both!(run, "userdata", "make_userdata", S => roomy::<S>(), userdata);
    both!(run, "thread", "with a stack of 16 places", S => roomy::<S>(), threads);
    let what = "with four constants and no nested prototype";
    run.both(
        "prototype",
        what,
        prototypes::<Ours>,
        prototypes::<crate::side::Source>,
    );
    heaps(run);
}
