//! Why a call was refused.

use core::error::Error;
use core::fmt;

/// Why a call was refused: a row of document 01's table of refusals, by its number.
///
/// Where more than one applies, a call answers the first of 1, 8, 5, 4, 2, 6, 3, 7. A refused call
/// has changed nothing, but [`OverLimit`](Self::OverLimit) stands after the step that was made, and
/// [`Damaged`](Self::Damaged) may be found by the work itself.
///
/// ```
/// use collector::{Heap, Refusal, Sizes};
///
/// let mut heap = Heap::new(Sizes::default())?;
/// let refusal = heap.pop().unwrap_err();
/// assert_eq!(refusal, Refusal::WrongState);
/// assert_eq!(refusal.number(), 5);
/// assert!(refusal.to_string().starts_with("the call does not fit"));
/// # Ok::<(), Refusal>(())
/// ```
#[derive(Clone, Copy, Debug, PartialEq, Eq, Hash)]
pub enum Refusal {
    /// 1: a buffer is too short, or a size, count, phase or current white stored in the header lies
    /// outside its range.
    BadBuffers = 1,
    /// 2: a handle given names no occupied slot of its kind, or a constant of a prototype does not.
    Stale = 2,
    /// 3: every slot of the arena is occupied, or every prototype number used.
    Full = 3,
    /// 4: an index, length or size outside its range; a push onto a full stack or list; nesting a
    /// prototype that has a parent or is named twice; a node with a nil key and a value that is not
    /// nil, a NaN key, or a key equal to another node's.
    OutOfRange = 4,
    /// 5: closing a closed upvalue or setting an open one; pop of an empty stack; finish with no
    /// finalizer out.
    WrongState = 5,
    /// 6: the tracked total would pass 2^31 - 1 bytes.
    TotalTooLarge = 6,
    /// 7: a check ends with the total above the limit.
    OverLimit = 7,
    /// 8: the words hold what no calls make, and the damage mark is set, before the call or by it.
    Damaged = 8,
}

impl Refusal {
    /// All of them, by number.
    ///
    /// ```
    /// use collector::Refusal;
    /// for refusal in Refusal::ALL {
    ///     println!("{refusal}");
    /// }
    /// ```
    pub const ALL: [Self; 8] = [
        Self::BadBuffers,
        Self::Stale,
        Self::Full,
        Self::OutOfRange,
        Self::WrongState,
        Self::TotalTooLarge,
        Self::OverLimit,
        Self::Damaged,
    ];

    /// Its number in document 01, 1 to 8.
    ///
    /// ```
    /// assert_eq!(collector::Refusal::Stale.number(), 2);
    /// ```
    #[must_use]
    pub const fn number(self) -> u32 {
        self as u32
    }

    /// The refusal of this number, if there is one.
    ///
    /// ```
    /// use collector::Refusal;
    /// assert_eq!(Refusal::from_number(8), Some(Refusal::Damaged));
    /// assert_eq!(Refusal::from_number(9), None);
    /// ```
    #[must_use]
    pub fn from_number(number: u32) -> Option<Self> {
        Self::ALL.into_iter().find(|r| r.number() == number)
    }

    const fn words(self) -> &'static str {
        match self {
            Self::BadBuffers => {
                "the buffers hold no heap: one is too short, or its header is out of range"
            }
            Self::Stale => "a handle given names no occupied slot of its kind",
            Self::Full => "every slot of the arena, or every prototype number, is in use",
            Self::OutOfRange => {
                "an index, length, size or key is outside its range, or a stack or list is full"
            }
            Self::WrongState => {
                "the call does not fit: an empty stack, an upvalue's state, or no finalizer out"
            }
            Self::TotalTooLarge => "the tracked total would pass 2^31 - 1 bytes",
            Self::OverLimit => "the total is above the limit",
            Self::Damaged => "the heap is damaged: its words hold what no calls make",
        }
    }
}

impl fmt::Display for Refusal {
    fn fmt(&self, f: &mut fmt::Formatter<'_>) -> fmt::Result {
        write!(f, "{} (refusal {})", self.words(), self.number())
    }
}

impl Error for Refusal {}
