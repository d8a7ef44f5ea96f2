//! Pause, step multiplier and limit: any number. Each answers the value before.

use crate::buffers::{Buffers, Heap, halves};
use heap::layout::header;

impl Heap<'_> {
    fn set_percent(&mut self, place: usize, percent: u32) -> u64 {
        std::mem::replace(&mut self.words[place], percent).into()
    }

    /// A threshold above the limit becomes the limit.
    fn set_limit(&mut self, limit: u64) -> u64 {
        let before = self.long(header::LIMIT);
        self.set_long(header::LIMIT, limit);
        let threshold = self.long(header::THRESHOLD);
        self.set_long(header::THRESHOLD, threshold.min(limit));
        before
    }
}

impl Buffers<'_> {
    pub fn set_pause(&mut self, percent: u32, out: &mut [u32]) -> u32 {
        self.tell(out, |h| Ok(halves(h.set_percent(header::PAUSE, percent))))
    }

    pub fn set_stepmul(&mut self, percent: u32, out: &mut [u32]) -> u32 {
        self.tell(out, |h| Ok(halves(h.set_percent(header::STEPMUL, percent))))
    }

    pub fn set_limit(&mut self, limit: u64, out: &mut [u32]) -> u32 {
        self.tell(out, |h| Ok(halves(h.set_limit(limit))))
    }
}
