//! Full collections of userdata with a `__gc` method.

use crate::due::Due;
use crate::run::{Run, both};
use crate::side::Side;
use timing::timed;

fn held<S: Side>(count: u32) -> Due<S> {
    let mut due = Due::new(count);
    due.hold();
    due
}

fn full<S: Side>(due: &mut Due<S>) -> f64 {
    timed(1, || due.side.full())
}

pub fn rows(run: &Run) {
    let what = "full_gc of userdata with __gc that are dead: queued by their creation numbers \
                (those made later lie in lower slots), handed out and finished one by one";
    for (count, number) in [(64, "64"), (512, "512"), (4096, "4,096")] {
        let name = format!("{number} userdata, all due");
        both!(run, &name, what, S => Due::<S>::new(count), Due::full);
    }
    let what = "full_gc of such userdata that are live: each is looked at, none is due";
    both!(run, "512 userdata, none due", what, S => held::<S>(512), full);
}
