//! The single step: one unit of work in the phase that the words say.

use crate::buffers::Heap;
use crate::lists::Item;
use crate::roots::{Propagated, phase};
use crate::value::{Handle, NIL, Value};
use heap::ask::{Kind, List};
use heap::layout::header;

/// What a finalizer costs.
pub(crate) const FINALIZER: u64 = 100;

/// A step's cost, or the userdata and the method that are handed out.
pub(crate) enum Step {
    Cost(u64),
    Out(Handle, Value),
}

impl Heap<'_> {
    pub fn single(&mut self) -> Step {
        match self.phase() {
            phase::PAUSE => Step::Cost(self.begin_cycle()),
            phase::PROPAGATE => Step::Cost(self.propagate()),
            phase::SWEEP_STRING => Step::Cost(self.sweep_strings()),
            phase::SWEEP => Step::Cost(self.sweep_others()),
            _ => self.finalize(),
        }
    }

    pub fn begin_cycle(&mut self) -> u64 {
        self.empty_lists();
        self.mark_roots();
        self.words[header::PHASE] = phase::PROPAGATE;
        0
    }

    fn propagate(&mut self) -> u64 {
        match self.propagate_one() {
            Propagated::Done(cost) => cost,
            Propagated::Main => self.traverse_main(),
            Propagated::Nothing => {
                self.atomic();
                0
            }
        }
    }

    /// The queue's end; the method is looked up now. An item that is no userdata's costs nothing; with
    /// no item left the cycle is over.
    fn finalize(&mut self) -> Step {
        match self.pop(List::Queue) {
            None => {
                self.words[header::PHASE] = phase::PAUSE;
                self.clear_debt();
                Step::Cost(0)
            }
            Some(Item::Object(Kind::Userdata, handle)) => self.finalize_one(handle),
            Some(_) => Step::Cost(0),
        }
    }

    fn finalize_one(&mut self, handle: Handle) -> Step {
        let body = self.named_body(Kind::Userdata, handle);
        let method = body.map_or(NIL, |body| self.finalizer(self.metatable(body)));
        if method.is_nil() {
            self.lower_estimate();
            return Step::Cost(FINALIZER);
        }
        self.raise_threshold();
        Step::Out(handle, method)
    }
}
