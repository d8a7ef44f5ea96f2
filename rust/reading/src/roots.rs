//! Roots, propagation from them, and the barriers that keep it sound.

use crate::arena::{BLACK, GRAY};
use crate::buffers::Heap;
use crate::lists::Item;
use crate::value::{Handle, Value};
use heap::ask::{Kind, List};
use heap::layout::header;

/// The phases by their numbers.
pub(crate) mod phase {
    pub const PAUSE: u32 = 0;
    pub const PROPAGATE: u32 = 1;
    pub const SWEEP_STRING: u32 = 2;
    pub const SWEEP: u32 = 3;
    pub const FINALIZE: u32 = 4;
}

/// What one step of propagation found.
pub(crate) enum Propagated {
    Done(u64),
    Main,
    Nothing,
}

impl Heap<'_> {
    pub fn phase(&self) -> u32 {
        self.words[header::PHASE]
    }

    /// Marking begins with empty lists; the queue is kept.
    pub fn empty_lists(&mut self) {
        for list in [List::Gray, List::Grayagain, List::Weak] {
            self.empty(list);
        }
    }

    pub fn mark_roots(&mut self) {
        self.push(List::Gray, Item::Main);
        self.mark_table(self.optional(header::GLOBAL));
        self.mark_table(self.optional(header::REGISTRY));
        for kind in 0..9 {
            self.mark_table(self.optional(header::METATABLES + 2 * kind));
        }
        for name in [header::NAME_MODE, header::NAME_GC] {
            if let Some(name) = self.optional(name) {
                self.mark(Kind::Strings, name);
            }
        }
    }

    /// The last gray item is taken out and traversed. One that gray does not hold is unknown: cost 0.
    pub fn propagate_one(&mut self) -> Propagated {
        let Some(item) = self.pop(List::Gray) else {
            return Propagated::Nothing;
        };
        Propagated::Done(match item {
            Item::Object(Kind::Tables, handle) => self.traverse_table(handle),
            Item::Object(Kind::Functions, handle) => self.traverse_closure(handle),
            Item::Object(Kind::Threads, handle) => self.traverse_thread(handle),
            Item::Main => return Propagated::Main,
            Item::Object(..) | Item::Unknown => 0,
        })
    }

    /// Until nothing is gray; the main thread is passed over, since its caller traverses it.
    pub fn propagate_all(&mut self) {
        while !matches!(self.propagate_one(), Propagated::Nothing) {}
    }

    /// A black table that was stored to is gray again and waits for the atomic phase.
    pub fn barrier_back(&mut self, handle: Handle) {
        let black = self.shade(Kind::Tables, handle) == BLACK;
        if self.phase() == phase::PROPAGATE && black {
            self.paint(Kind::Tables, handle.0 as usize, GRAY);
            self.push(List::Grayagain, Item::Object(Kind::Tables, handle));
        }
    }

    /// What a black object was given is marked, if it is in the current white.
    pub fn barrier_forward(&mut self, parent: u32, child: Value) {
        let white = child
            .object()
            .is_some_and(|(kind, handle)| self.shade(kind, handle) == self.white());
        if self.phase() == phase::PROPAGATE && parent == BLACK && white {
            self.mark_value(child);
        }
    }
}
