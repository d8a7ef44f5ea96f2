//! Full collections of weak tables.

use crate::run::{Run, both};
use crate::weak_heap::{Mode, WeakHeap};

pub fn rows(run: &Run) {
    let what = "full_gc of 512 weak tables of 8 places and 8 nodes; every other weak entry holds a dead \
                table and is cleared; the entries are filled again before it";
    for mode in Mode::ALL {
        both!(run, mode.name(), what, S => WeakHeap::<S>::new(mode), WeakHeap::full);
    }
}
