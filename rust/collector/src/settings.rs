//! Settings: pause, step multiplier and limit.

use crate::answer::{gives, joined};
use crate::{Heap, Refusal, engine};

/// What stands for no limit.
pub(crate) const NO_LIMIT: u64 = u64::MAX;

/// A limit as it is stored.
pub(crate) fn limit(stored: u64) -> Option<u64> {
    Some(stored).filter(|n| *n != NO_LIMIT)
}

/// Settings. Each call answers the setting before.
impl<W: AsMut<[u32]>, B: AsMut<[u8]>> Heap<W, B> {
    /// The pause in percent: how far the total may grow over what a cycle has left before the next
    /// one begins. A new heap has 200.
    ///
    /// # Errors
    /// [`BadBuffers`](Refusal::BadBuffers) and [`Damaged`](Refusal::Damaged), as every call.
    ///
    /// ```
    /// # use collector::{Heap, Sizes};
    /// # let mut heap = Heap::new(Sizes::default())?;
    /// assert_eq!(heap.set_pause(150)?, 200);
    /// assert_eq!(heap.pause()?, 150);
    /// # Ok::<(), collector::Refusal>(())
    /// ```
    #[doc(alias = "sieddesan_set_pause")]
    pub fn set_pause(&mut self, percent: u32) -> Result<u32, Refusal> {
        let (w, b) = self.buffers();
        let [before, _] = gives(|out| engine::set_pause(w, b, percent, out))?;
        Ok(before)
    }

    /// The step multiplier in percent: how much an automatic step does. A new heap has 200, which
    /// is a budget of 2,000; 0 is a whole cycle.
    ///
    /// # Errors
    /// [`BadBuffers`](Refusal::BadBuffers) and [`Damaged`](Refusal::Damaged), as every call.
    ///
    /// ```
    /// # use collector::{Heap, Sizes};
    /// # let mut heap = Heap::new(Sizes::default())?;
    /// assert_eq!(heap.set_stepmul(400)?, 200);
    /// assert_eq!(heap.stepmul()?, 400);
    /// # Ok::<(), collector::Refusal>(())
    /// ```
    #[doc(alias = "sieddesan_set_stepmul")]
    pub fn set_stepmul(&mut self, percent: u32) -> Result<u32, Refusal> {
        let (w, b) = self.buffers();
        let [before, _] = gives(|out| engine::set_stepmul(w, b, percent, out))?;
        Ok(before)
    }

    /// The limit in bytes that [`check`](Heap::check) holds the total to, or none. A threshold
    /// above it becomes the limit. 2^64 - 1 is none too.
    ///
    /// # Errors
    /// [`BadBuffers`](Refusal::BadBuffers) and [`Damaged`](Refusal::Damaged), as every call.
    ///
    /// ```
    /// # use collector::{Heap, Sizes};
    /// # let mut heap = Heap::new(Sizes::default())?;
    /// assert_eq!(heap.set_limit(50_000)?, None);
    /// assert_eq!(heap.set_limit(None)?, Some(50_000));
    /// # Ok::<(), collector::Refusal>(())
    /// ```
    #[doc(alias = "sieddesan_set_limit")]
    pub fn set_limit(&mut self, bytes: impl Into<Option<u64>>) -> Result<Option<u64>, Refusal> {
        let bytes = bytes.into().unwrap_or(NO_LIMIT);
        let (w, b) = self.buffers();
        let before = gives(|out| engine::set_limit(w, b, bytes, out))?;
        Ok(limit(joined(before)))
    }
}
