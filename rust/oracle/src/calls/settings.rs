//! Settings; each answers the value before.

use crate::heap::Oracle;
use std::mem;

impl Oracle {
    pub fn set_pause(&mut self, percent: u32) -> u32 {
        mem::replace(&mut self.state.gc.gc_state.gc_pause, percent)
    }

    pub fn set_stepmul(&mut self, percent: u32) -> u32 {
        mem::replace(&mut self.state.gc.gc_state.gc_stepmul, percent)
    }

    /// Sets the limit or takes it away; the source also lowers the threshold to it.
    pub fn set_limit(&mut self, limit: Option<u64>) -> Option<u64> {
        let before = self.limit();
        let limit = limit.map_or(usize::MAX, |n| n as usize);
        self.state.gc.set_alloc_limit(limit);
        before
    }

    /// The limit; the source writes its largest number for none.
    #[must_use]
    pub fn limit(&self) -> Option<u64> {
        let limit = self.state.gc.gc_state.alloc_limit;
        (limit != usize::MAX).then_some(limit as u64)
    }
}
