//! How long a call may take, stated once, and what was measured.
//!
//! The bound is [`ANY`] nanoseconds, [`EACH`] for each word and byte of the two buffers, and [`WALK`] for
//! each prototype, for each closure and each item of the gray lists. With the 256 prototypes that there
//! can be it is linear in the sizes; the heap's own number of them makes it closer. The reasons:
//!
//! - No call looks at a word more often than a fixed number of times, but for what a list's item or a
//!   userdata leads to: a table of 580 words, a metatable of 64 nodes. An item is three words, a userdata
//!   fourteen; [`EACH`] leaves room for such a visit for each of them. The program slow_odd measures the
//!   calls that have most of this to do, at a fifth of their bound or less.
//! - A closure's constants are those of its prototype and of all nested ones (document 01, 'Followed
//!   links'), so each traversal of a closure may walk every prototype, 24 values and numbers in each. A
//!   closure is traversed when it was white and for each item that names it.
//!
//! One thing is known to be over it: the atomic step where many userdata are due at once whose creation
//! order falls by index (docs/DECISIONS.md, 30: quadratic in them). slow_odd shows from how many on.

use heap::{Layout, Words};
use std::fmt;
use std::time::Duration;

/// Nanoseconds of any call, for each word or byte, and for each walk of one prototype.
pub const ANY: u64 = 10_000;
pub const EACH: u64 = 50;
pub const WALK: u64 = 600;

/// The bound for these buffers.
#[must_use]
pub fn bound(heap: &Words) -> Duration {
    let size = (heap.words.len() + heap.bytes.len()) as u64;
    let walks = reading::accepted(&heap.words, &heap.bytes).map_or(0, |layout| walks(&layout));
    Duration::from_nanos(ANY + EACH * size + WALK * walks)
}

/// The prototypes that a call may walk: each for each closure and each item of the gray lists.
fn walks(layout: &Layout) -> u64 {
    let [gray, grayagain, ..] = layout.lists;
    let closures = gray.room + grayagain.room + layout.arenas[2].slots;
    let protos = (layout.stack - layout.protos) / heap::layout::PROTO;
    (closures * protos) as u64
}

/// The call that came nearest to its bound.
#[derive(Clone, Copy, Debug, Default)]
pub struct Nearest {
    pub name: &'static str,
    pub words: usize,
    pub took: Duration,
    pub bound: Duration,
}

impl Nearest {
    #[must_use]
    pub fn share(&self) -> f64 {
        self.took.as_secs_f64() / self.bound.as_secs_f64().max(1e-9)
    }

    pub fn seen(&mut self, other: Self) {
        if other.share() > self.share() {
            *self = other;
        }
    }
}

impl fmt::Display for Nearest {
    fn fmt(&self, f: &mut fmt::Formatter<'_>) -> fmt::Result {
        let Self {
            name,
            words,
            took,
            bound,
        } = self;
        let share = 100.0 * self.share();
        write!(
            f,
            "{name} on {words} words took {took:?} of {bound:?} ({share:.0} percent)"
        )
    }
}
