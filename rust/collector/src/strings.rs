//! Strings.

use crate::answer::Read;
use crate::{Heap, Refusal, StringRef, engine};
use alloc::vec::Vec;

/// Reads of strings.
impl<W: AsRef<[u32]>, B: AsRef<[u8]>> Heap<W, B> {
    /// A question by its place in the header's list.
    fn text(&self, s: StringRef, field: u32, at: u32) -> Result<Read, Refusal> {
        let (index, generation) = (s.index(), s.generation());
        self.ask(|w, b, out| engine::read_string(w, b, index, generation, field, at, out))
    }

    /// The length of a string in bytes.
    ///
    /// # Errors
    /// [`Stale`](Refusal::Stale).
    ///
    /// ```
    /// # use collector::{Heap, Sizes};
    /// # let mut heap = Heap::new(Sizes::default())?;
    /// let text = heap.make_string(b"stripe")?;
    /// assert_eq!(heap.string_len(text)?, 6);
    /// # Ok::<(), collector::Refusal>(())
    /// ```
    #[doc(alias = "sieddesan_read_string")]
    pub fn string_len(&self, s: StringRef) -> Result<u32, Refusal> {
        Ok(self.text(s, 0, 0)?.small())
    }

    /// Byte `i` of a string.
    ///
    /// # Errors
    /// [`Stale`](Refusal::Stale), then [`OutOfRange`](Refusal::OutOfRange) from its length on.
    ///
    /// ```
    /// # use collector::{Heap, Refusal, Sizes};
    /// # let mut heap = Heap::new(Sizes::default())?;
    /// let text = heap.make_string(b"v")?;
    /// assert_eq!(heap.string_byte(text, 0)?, b'v');
    /// assert_eq!(heap.string_byte(text, 1), Err(Refusal::OutOfRange));
    /// # Ok::<(), Refusal>(())
    /// ```
    #[doc(alias = "sieddesan_read_string")]
    pub fn string_byte(&self, s: StringRef, i: u32) -> Result<u8, Refusal> {
        Ok(self.text(s, 1, i)?.byte())
    }

    /// All bytes of a string.
    ///
    /// # Errors
    /// [`Stale`](Refusal::Stale).
    ///
    /// ```
    /// # use collector::{Heap, Sizes};
    /// # let mut heap = Heap::new(Sizes::default())?;
    /// let text = heap.make_string(b"parity")?;
    /// assert_eq!(heap.string_bytes(text)?, b"parity");
    /// # Ok::<(), collector::Refusal>(())
    /// ```
    #[doc(alias = "sieddesan_read_string")]
    pub fn string_bytes(&self, s: StringRef) -> Result<Vec<u8>, Refusal> {
        (0..self.string_len(s)?)
            .map(|i| self.string_byte(s, i))
            .collect()
    }
}
