//! The slots of the arenas: colours, generations and chains of free slots.

use crate::answer::Read;
use crate::{Handle, Heap, Kind, Refusal, engine};

/// The colour of a slot.
///
/// ```
/// use collector::{Colour, Heap, Sizes};
///
/// let mut heap = Heap::new(Sizes::default())?;
/// let table = heap.make_table(0, 0)?;
/// assert_eq!(heap.colour(table)?, Colour::White0);
/// # Ok::<(), collector::Refusal>(())
/// ```
#[derive(Clone, Copy, Debug, PartialEq, Eq, Hash)]
pub enum Colour {
    /// No object is in the slot.
    Free,
    /// Not reached, in the first white.
    White0,
    /// Not reached, in the second white.
    White1,
    /// Reached, and still to be traversed.
    Gray,
    /// Reached and traversed.
    Black,
}

impl Colour {
    /// A colour by its number. An unknown one is free.
    pub(crate) const fn of(number: u32) -> Self {
        match number {
            1 => Self::White0,
            2 => Self::White1,
            3 => Self::Gray,
            4 => Self::Black,
            _ => Self::Free,
        }
    }
}

/// Reads of slots, and what a handle of any kind names.
impl<W: AsRef<[u32]>, B: AsRef<[u8]>> Heap<W, B> {
    /// A question by its place in the header's list.
    fn arena(&self, kind: Kind, field: u32, index: u32) -> Result<Read, Refusal> {
        self.ask(|w, b, out| engine::read_arena(w, b, kind as u32, field, index, out))
    }

    /// Whether a handle names an object.
    ///
    /// # Errors
    /// [`BadBuffers`](Refusal::BadBuffers) and [`Damaged`](Refusal::Damaged), as every call.
    ///
    /// ```
    /// # use collector::{Heap, Sizes, UserdataRef};
    /// # let mut heap = Heap::new(Sizes::default())?;
    /// let lease = heap.make_userdata()?;
    /// assert!(heap.is_live(lease)?);
    /// assert!(!heap.is_live(UserdataRef::new(7, 0))?);
    /// # Ok::<(), collector::Refusal>(())
    /// ```
    #[doc(alias = "sieddesan_read_arena")]
    pub fn is_live(&self, handle: impl Handle) -> Result<bool, Refusal> {
        match self.colour(handle) {
            Ok(_) => Ok(true),
            Err(Refusal::Stale) => Ok(false),
            Err(refusal) => Err(refusal),
        }
    }

    /// The colour of the object that a handle names.
    ///
    /// # Errors
    /// [`Stale`](Refusal::Stale).
    ///
    /// ```
    /// # use collector::{Colour, Heap, Sizes};
    /// # let mut heap = Heap::new(Sizes::default())?;
    /// let dropped = heap.make_table(0, 0)?;
    /// assert_ne!(heap.colour(dropped)?, Colour::Free);
    /// heap.collect()?.run_finalizers(|_| ())?;
    /// assert!(heap.colour(dropped).is_err());
    /// # Ok::<(), collector::Refusal>(())
    /// ```
    #[doc(alias = "sieddesan_read_arena")]
    pub fn colour(&self, handle: impl Handle) -> Result<Colour, Refusal> {
        let (kind, index) = (handle.kind(), handle.index());
        // A slot from the fresh index on has never been taken.
        if self.fresh_index(kind)? <= index
            || self.slot_generation(kind, index)? != handle.generation()
        {
            return Err(Refusal::Stale);
        }
        match self.slot_colour(kind, index)? {
            Colour::Free => Err(Refusal::Stale),
            colour => Ok(colour),
        }
    }

    /// The slot at the head of an arena's chain of free slots, if it has one: the next object is
    /// made there.
    ///
    /// # Errors
    /// [`BadBuffers`](Refusal::BadBuffers) and [`Damaged`](Refusal::Damaged), as every call.
    ///
    /// ```
    /// # use collector::{Heap, Kind, Sizes};
    /// # let mut heap = Heap::new(Sizes::default())?;
    /// let dropped = heap.make_userdata()?;
    /// assert_eq!(heap.free_head(Kind::Userdata)?, None);
    /// heap.collect()?.run_finalizers(|_| ())?;
    /// assert_eq!(heap.free_head(Kind::Userdata)?, Some(dropped.index()));
    /// # Ok::<(), collector::Refusal>(())
    /// ```
    #[doc(alias = "sieddesan_read_arena")]
    pub fn free_head(&self, kind: Kind) -> Result<Option<u32>, Refusal> {
        Ok(self.arena(kind, 0, 0)?.place())
    }

    /// The fresh index of an arena: no slot from there on has ever been taken.
    ///
    /// # Errors
    /// [`BadBuffers`](Refusal::BadBuffers) and [`Damaged`](Refusal::Damaged), as every call.
    ///
    /// ```
    /// # use collector::{Heap, Kind, Sizes};
    /// # let mut heap = Heap::new(Sizes::default())?;
    /// assert_eq!(heap.fresh_index(Kind::Tables)?, 2);
    /// heap.make_table(0, 0)?;
    /// assert_eq!(heap.fresh_index(Kind::Tables)?, 3);
    /// # Ok::<(), collector::Refusal>(())
    /// ```
    #[doc(alias = "sieddesan_read_arena")]
    pub fn fresh_index(&self, kind: Kind) -> Result<u32, Refusal> {
        Ok(self.arena(kind, 1, 0)?.small())
    }

    /// How many objects of a kind there are.
    ///
    /// # Errors
    /// [`BadBuffers`](Refusal::BadBuffers) and [`Damaged`](Refusal::Damaged), as every call.
    ///
    /// ```
    /// # use collector::{Heap, Kind, Sizes};
    /// # let mut heap = Heap::new(Sizes::default())?;
    /// heap.make_userdata()?;
    /// assert_eq!(heap.occupied(Kind::Userdata)?, 1);
    /// # Ok::<(), collector::Refusal>(())
    /// ```
    #[doc(alias = "sieddesan_read_arena")]
    pub fn occupied(&self, kind: Kind) -> Result<u32, Refusal> {
        Ok(self.arena(kind, 2, 0)?.small())
    }

    /// The generation of a slot.
    ///
    /// # Errors
    /// [`OutOfRange`](Refusal::OutOfRange) from the fresh index on.
    ///
    /// ```
    /// # use collector::{Heap, Kind, Sizes};
    /// # let mut heap = Heap::new(Sizes::default())?;
    /// heap.make_userdata()?;
    /// heap.collect()?.run_finalizers(|_| ())?;
    /// assert_eq!(heap.slot_generation(Kind::Userdata, 0)?, 1, "it was freed once");
    /// # Ok::<(), collector::Refusal>(())
    /// ```
    #[doc(alias = "sieddesan_read_arena")]
    pub fn slot_generation(&self, kind: Kind, slot: u32) -> Result<u32, Refusal> {
        Ok(self.arena(kind, 3, slot)?.small())
    }

    /// The colour of a slot.
    ///
    /// # Errors
    /// [`OutOfRange`](Refusal::OutOfRange) from the fresh index on.
    ///
    /// ```
    /// # use collector::{Colour, Heap, Kind, Refusal, Sizes};
    /// # let mut heap = Heap::new(Sizes::default())?;
    /// assert_eq!(heap.slot_colour(Kind::Tables, 0)?, Colour::White0);
    /// assert_eq!(heap.slot_colour(Kind::Tables, 2), Err(Refusal::OutOfRange));
    /// # Ok::<(), Refusal>(())
    /// ```
    #[doc(alias = "sieddesan_read_arena")]
    pub fn slot_colour(&self, kind: Kind, slot: u32) -> Result<Colour, Refusal> {
        Ok(Colour::of(self.arena(kind, 4, slot)?.small()))
    }

    /// The slot that follows a free slot in its arena's chain, if one does.
    ///
    /// # Errors
    /// [`OutOfRange`](Refusal::OutOfRange) from the fresh index on.
    ///
    /// ```
    /// # use collector::{Heap, Kind, Sizes};
    /// # let mut heap = Heap::new(Sizes::default())?;
    /// heap.make_userdata()?;
    /// heap.make_userdata()?;
    /// heap.collect()?.run_finalizers(|_| ())?;
    /// assert_eq!(heap.free_head(Kind::Userdata)?, Some(1));
    /// assert_eq!(heap.slot_link(Kind::Userdata, 1)?, Some(0));
    /// assert_eq!(heap.slot_link(Kind::Userdata, 0)?, None);
    /// # Ok::<(), collector::Refusal>(())
    /// ```
    #[doc(alias = "sieddesan_read_arena")]
    pub fn slot_link(&self, kind: Kind, slot: u32) -> Result<Option<u32>, Refusal> {
        Ok(self.arena(kind, 5, slot)?.place())
    }
}
