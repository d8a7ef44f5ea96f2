//! How large a heap is.

use crate::answer::{answered, gives};
use crate::{Refusal, engine};

/// The ten sizes of a heap, chosen when it is made and fixed from then on.
///
/// ```
/// use collector::{Heap, Sizes};
///
/// let sizes = Sizes { tables: 200, userdata: 500, ..Sizes::default() };
/// let heap = Heap::new(sizes)?;
/// assert_eq!(heap.sizes()?, sizes);
/// # Ok::<(), collector::Refusal>(())
/// ```
#[derive(Clone, Copy, Debug, PartialEq, Eq, Hash)]
pub struct Sizes {
    /// Slots of strings, 2 to 4,096; two are taken from the start.
    pub strings: u32,
    /// Slots of tables, 2 to 4,096; two are taken from the start.
    pub tables: u32,
    /// Slots of closures, to 4,096.
    pub functions: u32,
    /// Slots of upvalues, to 4,096.
    pub upvalues: u32,
    /// Slots of userdata, to 4,096.
    pub userdata: u32,
    /// Slots of threads, to 4,096.
    pub threads: u32,
    /// Prototypes, to 256.
    pub prototypes: u32,
    /// Places of the main stack, to 256.
    pub main_stack: u32,
    /// Places of the main open list, to 64.
    pub main_open: u32,
    /// Frames of the main thread, 1 to 32.
    pub frames: u32,
}

/// What the buffers of a heap have to hold.
///
/// ```
/// use collector::Sizes;
///
/// let needed = Sizes::SMALLEST.needed()?;
/// println!("{} words and {} bytes", needed.words, needed.bytes);
/// # Ok::<(), collector::Refusal>(())
/// ```
#[derive(Clone, Copy, Debug, PartialEq, Eq, Hash)]
pub struct Needed {
    /// Words of 32 bits.
    pub words: usize,
    /// Bytes, beside the words.
    pub bytes: usize,
}

impl Sizes {
    /// The smallest heap that can be made.
    ///
    /// ```
    /// # use collector::{Heap, Sizes};
    /// assert!(Heap::new(Sizes::SMALLEST).is_ok());
    /// ```
    pub const SMALLEST: Self = Self {
        strings: 2,
        tables: 2,
        functions: 0,
        upvalues: 0,
        userdata: 0,
        threads: 0,
        prototypes: 0,
        main_stack: 0,
        main_open: 0,
        frames: 1,
    };

    /// The largest heap that can be made: every size at the end of its range.
    ///
    /// ```
    /// # use collector::Sizes;
    /// let needed = Sizes::LARGEST.needed()?;
    /// assert_eq!(needed.bytes, 64 * 4096);
    /// # Ok::<(), collector::Refusal>(())
    /// ```
    pub const LARGEST: Self = Self {
        strings: 4096,
        tables: 4096,
        functions: 4096,
        upvalues: 4096,
        userdata: 4096,
        threads: 4096,
        prototypes: 256,
        main_stack: 256,
        main_open: 64,
        frames: 32,
    };

    /// How long the buffers of such a heap have to be.
    ///
    /// # Errors
    /// [`OutOfRange`](Refusal::OutOfRange) if a size is.
    ///
    /// ```
    /// use collector::{Refusal, Sizes};
    ///
    /// assert!(Sizes::default().needed().is_ok());
    /// let none = Sizes { frames: 0, ..Sizes::default() };
    /// assert_eq!(none.needed(), Err(Refusal::OutOfRange));
    /// ```
    #[doc(alias = "sieddesan_needed")]
    pub fn needed(self) -> Result<Needed, Refusal> {
        let sizes = <[u32; 10]>::from(self);
        let [words, bytes] = gives(|out| engine::needed(&sizes, out))?;
        Ok(Needed {
            words: words as usize,
            bytes: bytes as usize,
        })
    }

    /// Makes a heap of these sizes in the buffers.
    pub(crate) fn make(self, words: &mut [u32], bytes: &mut [u8]) -> Result<(), Refusal> {
        answered(engine::make_heap(words, bytes, &<[u32; 10]>::from(self)))
    }
}

/// Room for some dozen objects of each kind: sizes to try things with.
impl Default for Sizes {
    fn default() -> Self {
        Self {
            strings: 64,
            tables: 64,
            functions: 64,
            upvalues: 64,
            userdata: 64,
            threads: 8,
            prototypes: 16,
            main_stack: 64,
            main_open: 16,
            frames: 8,
        }
    }
}

/// In the order of the header include/sieddesan.h.
impl From<Sizes> for [u32; 10] {
    fn from(s: Sizes) -> Self {
        [
            s.strings,
            s.tables,
            s.functions,
            s.upvalues,
            s.userdata,
            s.threads,
            s.prototypes,
            s.main_stack,
            s.main_open,
            s.frames,
        ]
    }
}

/// In the order of the header include/sieddesan.h.
impl From<[u32; 10]> for Sizes {
    fn from(sizes: [u32; 10]) -> Self {
        let [strings, tables, functions, upvalues, userdata, ..] = sizes;
        let [.., threads, prototypes, main_stack, main_open, frames] = sizes;
        Self {
            strings,
            tables,
            functions,
            upvalues,
            userdata,
            threads,
            prototypes,
            main_stack,
            main_open,
            frames,
        }
    }
}
