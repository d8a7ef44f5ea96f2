//! What every call of ours begins with, apart: test 1 and layout.

use crate::run::Run;
use crate::side::{Ours, Side};
use heap::ask::Counter;
use heap::layout::header;
use heap::sizes::SMALLEST;
use std::hint::black_box;
use std::time::Instant;
use steps::engine::{Call, KINDS};
use timing::timed;

const REPEATS: u32 = 10_000;

/// A read of a counter, on a heap that refuses it or not.
fn read(heap: &heap::Words, refused: u32) -> f64 {
    let (counter, mut out) = (Counter::Total as u32, [0; 4]);
    timed(REPEATS, || {
        let answer = heap.read_counter(black_box(counter), black_box(&mut out));
        assert_eq!(answer.err().map_or(0, |r| r.0), refused);
    })
}

/// A step while a finalizer is out.
fn busy(ours: &mut Ours) -> f64 {
    timed(REPEATS, || {
        let kind = ours.step(Call::Single);
        assert_eq!(KINDS[kind], "busy");
    })
}

pub fn rows(run: &Run) {
    let mut ours = Ours::new(SMALLEST);
    ours.calls.heap.words[header::INTERRUPTED] = 1;
    run.alone(
        "test 1 and layout, in a step",
        "a single step while a finalizer is out: it makes test 1 and the layout, answers Busy and changes nothing",
        || busy(&mut ours),
    );
    let mut heap = Ours::new(SMALLEST).calls.heap;
    heap.words[header::DAMAGE] = 1;
    run.alone(
        "test 1 and layout, in a read",
        "a read of a counter that is refused with 8 once test 1 is passed",
        || read(&heap, 8),
    );
    heap.words.clear();
    run.alone(
        "the call by itself",
        "the same read of buffers of no words: refused with 1 by the first comparison",
        || read(&heap, 1),
    );
    run.alone(
        "the clock by itself",
        "two readings of the clock with nothing between: it is in every time of the longest step",
        || timed(REPEATS, || _ = black_box(Instant::now().elapsed())),
    );
}
