//! The source's own steps with nothing around them, for whoever times them. No driver is asked: a
//! finalizer succeeds at once, and what it overwrote above the main stack's top stays so.

use crate::heap::Oracle;

const SUCCEEDS: &str = "a finalizer that succeeds";

impl Oracle {
    /// One single step; its cost.
    pub fn bare_singlestep(&mut self) -> usize {
        self.state.gc_singlestep().expect(SUCCEEDS)
    }

    /// A budgeted step; whether it came to Pause.
    pub fn bare_step(&mut self, budget: i64) -> bool {
        self.state.gc_step(budget).expect(SUCCEEDS)
    }

    /// A full collection.
    pub fn bare_full(&mut self) {
        self.state.full_gc().expect(SUCCEEDS);
    }
}
