//! A heap in its two buffers.

use crate::answer::{Read, gives};
use crate::{Refusal, Sizes, engine};
use alloc::vec;
use alloc::vec::Vec;
use core::fmt;

/// A heap of Lua objects with its collector.
///
/// All of it is in two buffers, words of 32 bits and bytes, and nothing beside them: two heaps
/// with equal buffers are the same heap. [`Heap::new`] owns its buffers; [`Heap::new_in`] and
/// [`Heap::from_parts`] take any that are lent, `&mut [u32]` and `&mut [u8]` for instance, or a
/// dump. Reads ask only that the buffers can be read (`AsRef`), the other calls that they can be
/// written (`AsMut`).
///
/// Every call looks first whether the buffers hold a heap, and is refused where they do not:
/// whatever they hold, no call panics or leaves them. So each method can answer
/// [`BadBuffers`](Refusal::BadBuffers) and [`Damaged`](Refusal::Damaged), and its own description
/// names only what else it can answer. On a heap that [`new`](Heap::new) has made and that only
/// calls have changed neither is ever met.
///
/// ```
/// use collector::{Heap, Refusal, Sizes};
///
/// let mut heap = Heap::new(Sizes::default())?;
/// let table = heap.make_table(2, 0)?;
/// let text = heap.make_string(b"kept")?;
/// heap.table_set(table, 0, text)?;
/// heap.push(table)?;
/// heap.collect()?.run_finalizers(|_| ())?;
/// assert_eq!(heap.string_bytes(text)?, b"kept");
/// # Ok::<(), Refusal>(())
/// ```
#[derive(Clone, PartialEq, Eq)]
pub struct Heap<W = Vec<u32>, B = Vec<u8>> {
    words: W,
    bytes: B,
}

impl Heap {
    /// A new heap of these sizes, in buffers of its own.
    ///
    /// It holds the strings `__mode` and `__gc` and two tables, global and registry.
    ///
    /// # Errors
    /// [`OutOfRange`](Refusal::OutOfRange) if a size is.
    ///
    /// ```
    /// use collector::{Heap, Refusal, Sizes};
    ///
    /// let heap = Heap::new(Sizes::default())?;
    /// assert_eq!(heap.total()?, 224);
    ///
    /// let sizes = Sizes { strings: 1, ..Sizes::default() };
    /// assert_eq!(Heap::new(sizes), Err(Refusal::OutOfRange));
    /// # Ok::<(), Refusal>(())
    /// ```
    #[doc(alias = "sieddesan_make_heap")]
    pub fn new(sizes: Sizes) -> Result<Self, Refusal> {
        let needed = sizes.needed()?;
        Self::new_in(vec![0; needed.words], vec![0; needed.bytes], sizes)
    }
}

impl<W, B> Heap<W, B> {
    /// The heap that two buffers hold, a dump for instance. They are looked at by each call, not
    /// here.
    ///
    /// ```
    /// use collector::{Heap, Refusal, Sizes};
    ///
    /// let (mut words, bytes) = Heap::new(Sizes::default())?.into_parts();
    /// let dump = Heap::from_parts(&words[..], &bytes[..]);
    /// assert_eq!(dump.total()?, 224);
    ///
    /// words[0] = 1; // no heap has one slot for strings
    /// let odd = Heap::from_parts(words, bytes);
    /// assert_eq!(odd.total(), Err(Refusal::BadBuffers));
    /// # Ok::<(), Refusal>(())
    /// ```
    #[must_use]
    pub const fn from_parts(words: W, bytes: B) -> Self {
        Self { words, bytes }
    }

    /// Both buffers, as they are.
    ///
    /// ```
    /// use collector::{Heap, Sizes};
    ///
    /// let heap = Heap::new(Sizes::SMALLEST)?;
    /// let same = heap.clone();
    /// let (words, bytes) = heap.into_parts();
    /// assert_eq!(Heap::from_parts(words, bytes), same);
    /// # Ok::<(), collector::Refusal>(())
    /// ```
    #[must_use]
    pub fn into_parts(self) -> (W, B) {
        (self.words, self.bytes)
    }
}

impl<W: AsRef<[u32]>, B: AsRef<[u8]>> Heap<W, B> {
    /// The words. docs/LAYOUT.md says what each of them is.
    ///
    /// ```
    /// use collector::{Heap, Sizes};
    ///
    /// let heap = Heap::new(Sizes::SMALLEST)?;
    /// assert_eq!(heap.words().len(), Sizes::SMALLEST.needed()?.words);
    /// # Ok::<(), collector::Refusal>(())
    /// ```
    #[must_use]
    pub fn words(&self) -> &[u32] {
        self.words.as_ref()
    }

    /// The bytes, 64 for each slot of a string.
    ///
    /// ```
    /// use collector::{Heap, Sizes};
    ///
    /// let heap = Heap::new(Sizes::SMALLEST)?;
    /// assert_eq!(&heap.bytes()[..6], b"__mode");
    /// # Ok::<(), collector::Refusal>(())
    /// ```
    #[must_use]
    pub fn bytes(&self) -> &[u8] {
        self.bytes.as_ref()
    }

    /// The sizes it was made with.
    ///
    /// # Errors
    /// [`BadBuffers`](Refusal::BadBuffers) and [`Damaged`](Refusal::Damaged), as every call.
    ///
    /// ```
    /// use collector::{Heap, Sizes};
    ///
    /// assert_eq!(Heap::new(Sizes::LARGEST)?.sizes()?, Sizes::LARGEST);
    /// # Ok::<(), collector::Refusal>(())
    /// ```
    #[doc(alias = "sieddesan_read_size")]
    pub fn sizes(&self) -> Result<Sizes, Refusal> {
        let mut sizes = [0; 10];
        for (size, question) in sizes.iter_mut().zip(0..) {
            let read = self.ask(|w, b, out| engine::read_size(w, b, question, out));
            *size = read?.small();
        }
        Ok(Sizes::from(sizes))
    }

    /// The audit: whether the phase is Pause, each working list is within its room, each chain of
    /// free slots holds every free slot once, and every handle stored in an object names an object.
    ///
    /// It is for engineers who read a dump. A collection may leave a dead key in a node whose value
    /// is gone; then the audit says no although nothing is wrong.
    ///
    /// # Errors
    /// [`BadBuffers`](Refusal::BadBuffers) and [`Damaged`](Refusal::Damaged), as every call.
    ///
    /// ```
    /// use collector::{Heap, Sizes};
    ///
    /// let heap = Heap::new(Sizes::default())?;
    /// assert!(heap.audit()?);
    /// # Ok::<(), collector::Refusal>(())
    /// ```
    #[doc(alias = "sieddesan_audit")]
    pub fn audit(&self) -> Result<bool, Refusal> {
        let [yes] = gives(|out| engine::audit(self.words(), self.bytes(), out))?;
        Ok(yes != 0)
    }

    /// A read's answer.
    pub(crate) fn ask(
        &self,
        read: impl FnOnce(&[u32], &[u8], &mut [u32]) -> u32,
    ) -> Result<Read, Refusal> {
        gives(|out| read(self.words(), self.bytes(), out)).map(Read)
    }
}

impl<W: AsMut<[u32]>, B: AsMut<[u8]>> Heap<W, B> {
    /// A new heap of these sizes in buffers that are lent. What they held is lost; what is past the
    /// heap's end stays.
    ///
    /// # Errors
    /// [`OutOfRange`](Refusal::OutOfRange) if a size is, then [`BadBuffers`](Refusal::BadBuffers)
    /// if a buffer is too short.
    ///
    /// ```
    /// use collector::{Heap, Refusal, Sizes};
    ///
    /// let needed = Sizes::SMALLEST.needed()?;
    /// let mut words = vec![0; needed.words];
    /// let mut bytes = vec![0; needed.bytes];
    /// let mut heap = Heap::new_in(&mut words[..], &mut bytes[..], Sizes::SMALLEST)?;
    /// assert_eq!(heap.make_string(b"more"), Err(Refusal::Full));
    ///
    /// let short = Heap::new_in(&mut words[1..], &mut bytes[..], Sizes::SMALLEST);
    /// assert_eq!(short.unwrap_err(), Refusal::BadBuffers);
    /// # Ok::<(), Refusal>(())
    /// ```
    #[doc(alias = "sieddesan_make_heap")]
    pub fn new_in(mut words: W, mut bytes: B, sizes: Sizes) -> Result<Self, Refusal> {
        sizes.make(words.as_mut(), bytes.as_mut())?;
        Ok(Self { words, bytes })
    }

    /// Both buffers, for a call that changes them.
    pub(crate) fn buffers(&mut self) -> (&mut [u32], &mut [u8]) {
        (self.words.as_mut(), self.bytes.as_mut())
    }
}

/// How long the buffers are, and what the heap in them is at.
impl<W: AsRef<[u32]>, B: AsRef<[u8]>> fmt::Debug for Heap<W, B> {
    fn fmt(&self, f: &mut fmt::Formatter<'_>) -> fmt::Result {
        f.debug_struct("Heap")
            .field("words", &self.words().len())
            .field("bytes", &self.bytes().len())
            .field("phase", &self.phase())
            .field("total", &self.total())
            .finish()
    }
}
