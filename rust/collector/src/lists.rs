//! The four working lists of a collection.

use crate::answer::Read;
use crate::{FunctionRef, Heap, Refusal, TableRef, ThreadRef, UserdataRef, engine};

/// A working list.
///
/// ```
/// use collector::{Heap, List, Sizes};
///
/// let heap = Heap::new(Sizes::default())?;
/// assert_eq!(heap.list_len(List::Queue)?, 0, "no finalizer is due");
/// # Ok::<(), collector::Refusal>(())
/// ```
// In the order of the engine's numbers.
#[derive(Clone, Copy, Debug, PartialEq, Eq, Hash)]
pub enum List {
    /// Objects that are marked and still to be traversed.
    Gray,
    /// Objects that are traversed again in the atomic phase.
    Grayagain,
    /// Weak tables that are cleared in the atomic phase.
    Weak,
    /// Userdata that are due their finalizers; the last is handed out first.
    Queue,
}

/// What an item of a working list names.
///
/// ```
/// use collector::{Heap, Item, List, Sizes};
///
/// let mut heap = Heap::new(Sizes::default())?;
/// heap.single_step()?.run_finalizers(|_| ())?; // marks the roots
/// let gray = heap.list_len(List::Gray)?;
/// let items: Result<Vec<Item>, _> = (0..gray).map(|i| heap.list_item(List::Gray, i)).collect();
/// assert!(items?.contains(&Item::Main));
/// # Ok::<(), collector::Refusal>(())
/// ```
#[derive(Clone, Copy, Debug, PartialEq, Eq, Hash)]
pub enum Item {
    /// A table.
    Table(TableRef),
    /// A closure.
    Function(FunctionRef),
    /// A userdata.
    Userdata(UserdataRef),
    /// A thread.
    Thread(ThreadRef),
    /// The main thread.
    Main,
    /// An item of no known kind, which no calls make: steps take it out at cost 0.
    Unknown,
}

/// Reads of the working lists.
impl<W: AsRef<[u32]>, B: AsRef<[u8]>> Heap<W, B> {
    /// A question by its place in the header's list.
    fn list(&self, list: List, field: u32, index: u32) -> Result<Read, Refusal> {
        self.ask(|w, b, out| engine::read_list(w, b, list as u32, field, index, out))
    }

    /// How many items a working list holds.
    ///
    /// # Errors
    /// [`BadBuffers`](Refusal::BadBuffers) and [`Damaged`](Refusal::Damaged), as every call.
    ///
    /// ```
    /// use collector::{Heap, List, Sizes};
    ///
    /// let mut heap = Heap::new(Sizes::default())?;
    /// assert_eq!(heap.list_len(List::Gray)?, 0);
    /// heap.single_step()?.run_finalizers(|_| ())?;
    /// assert!(heap.list_len(List::Gray)? > 0, "the roots are to be traversed");
    /// # Ok::<(), collector::Refusal>(())
    /// ```
    #[doc(alias = "sieddesan_read_list")]
    pub fn list_len(&self, list: List) -> Result<u32, Refusal> {
        Ok(self.list(list, 0, 0)?.small())
    }

    /// Item `i` of a working list.
    ///
    /// # Errors
    /// [`OutOfRange`](Refusal::OutOfRange) from the end of the list on.
    ///
    /// ```
    /// use collector::{Heap, List, Refusal, Sizes};
    ///
    /// let heap = Heap::new(Sizes::default())?;
    /// assert_eq!(heap.list_item(List::Weak, 0), Err(Refusal::OutOfRange));
    /// # Ok::<(), collector::Refusal>(())
    /// ```
    #[doc(alias = "sieddesan_read_list")]
    pub fn list_item(&self, list: List, i: u32) -> Result<Item, Refusal> {
        Ok(self.list(list, 1, i)?.item())
    }
}
