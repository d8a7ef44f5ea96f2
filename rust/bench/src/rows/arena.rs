//! One arena by itself, beside the source's.

use crate::run::Run;
use oracle::slots::Slots;
use slots::Ours;
use std::hint::black_box;
use timing::timed;

const SLOTS: u32 = 4096;

fn full(colour: u32) -> (Ours, Slots) {
    let (mut ours, mut source) = (Ours::new(SLOTS as usize), Slots::new());
    for n in 0..SLOTS {
        ours.take(colour).expect("room");
        source.take(n, colour);
    }
    (ours, source)
}

/// A whole sweep in steps of 80, by ours and by the source.
fn sweep_ours(ours: &mut Ours, dead: u32, white: u32) {
    let mut at = 0;
    loop {
        let step = black_box(ours.sweep(dead, white, at, 80).expect("a place that fits"));
        at = step.next;
        if step.done {
            return;
        }
    }
}

fn sweep_source(source: &mut Slots, dead: u32, white: u32) {
    let mut at = 0;
    loop {
        let (_, next, done) = black_box(source.sweep(dead, white, at, 80));
        at = next;
        if done {
            return;
        }
    }
}

fn live_sweep(run: &Run) {
    let (mut ours, mut source) = full(4);
    run.both(
        "sweep 4,096 live slots",
        "in steps of 80",
        || timed(20, || sweep_ours(&mut ours, 2, 1)),
        || timed(20, || sweep_source(&mut source, 2, 1)),
    );
}

fn dead_sweep(run: &Run) {
    let (mut ours, mut source) = full(2);
    // Every free slot is taken again, in the colour that the next sweep frees.
    run.both(
        "sweep 4,096 dead slots",
        "in steps of 80: all are freed; they are taken again before it",
        || {
            while ours.count() < ours.fresh() {
                ours.take(2).expect("room");
            }
            timed(1, || sweep_ours(&mut ours, 2, 1))
        },
        || {
            while source.count() < source.fresh() {
                source.take(7, 2);
            }
            timed(1, || sweep_source(&mut source, 2, 1))
        },
    );
}

fn take_and_free(run: &Run) {
    const REPEATS: u32 = 20_000;
    let (mut ours, mut source) = (Ours::new(SLOTS as usize), Slots::new());
    run.both(
        "take a slot and free it",
        "the same slot each time",
        || {
            timed(REPEATS, || {
                let (index, generation) = ours.take(1).expect("room");
                ours.free(index, generation).expect("named");
            })
        },
        || {
            timed(REPEATS, || {
                let (index, generation) = source.take(7, 1);
                source.free(index, generation);
            })
        },
    );
}

pub fn rows(run: &Run) {
    live_sweep(run);
    dead_sweep(run);
    take_and_free(run);
}
