//! Roots that are handles: global, registry, the two names and the metatables of types.

use crate::answer::{Read, answered, maybe};
use crate::{Heap, Refusal, StringRef, TableRef, engine};

/// A type of values, for the metatable that all values of the type share.
///
/// ```
/// use collector::{Heap, Sizes, Type};
///
/// let mut heap = Heap::new(Sizes::default())?;
/// let metatable = heap.make_table(0, 4)?;
/// heap.set_type_metatable(Type::String, metatable)?;
/// assert_eq!(heap.type_metatable(Type::String)?, Some(metatable));
/// # Ok::<(), collector::Refusal>(())
/// ```
// In the order of the engine's numbers.
#[derive(Clone, Copy, Debug, PartialEq, Eq, Hash)]
pub enum Type {
    /// Nil.
    Nil,
    /// Booleans.
    Boolean,
    /// Numbers.
    Number,
    /// Strings.
    String,
    /// Closures.
    Function,
    /// Userdata that have no metatable of their own.
    Userdata,
    /// Threads.
    Thread,
    /// Tables that have no metatable of their own.
    Table,
    /// Light userdata.
    LightUserdata,
}

impl<W: AsMut<[u32]>, B: AsMut<[u8]>> Heap<W, B> {
    /// A type takes a metatable, or loses it.
    ///
    /// # Errors
    /// [`Stale`](Refusal::Stale).
    ///
    /// ```
    /// # use collector::{Heap, Sizes, Type};
    /// # let mut heap = Heap::new(Sizes::default())?;
    /// let metatable = heap.make_table(0, 0)?;
    /// heap.set_type_metatable(Type::Number, metatable)?;
    /// heap.set_type_metatable(Type::Number, None)?;
    /// # Ok::<(), collector::Refusal>(())
    /// ```
    #[doc(alias = "sieddesan_set_type_meta")]
    pub fn set_type_metatable(
        &mut self,
        of: Type,
        meta: impl Into<Option<TableRef>>,
    ) -> Result<(), Refusal> {
        let [some, index, generation] = maybe(meta.into());
        let (w, b) = self.buffers();
        answered(engine::set_type_meta(
            w, b, of as u32, some, index, generation,
        ))
    }
}

/// Reads of roots. On a heap that the calls have made the first four are never missing.
impl<W: AsRef<[u32]>, B: AsRef<[u8]>> Heap<W, B> {
    /// A question by its place in the header's list.
    fn root(&self, root: u32, index: u32) -> Result<Read, Refusal> {
        self.ask(|w, b, out| engine::read_root(w, b, root, index, out))
    }

    /// The global table.
    ///
    /// # Errors
    /// [`BadBuffers`](Refusal::BadBuffers) and [`Damaged`](Refusal::Damaged), as every call.
    ///
    /// ```
    /// # use collector::{Heap, Sizes};
    /// # let mut heap = Heap::new(Sizes::default())?;
    /// let global = heap.global()?.expect("every heap is made with it");
    /// assert_eq!(heap.table_node_count(global)?, 8);
    /// # Ok::<(), collector::Refusal>(())
    /// ```
    #[doc(alias = "sieddesan_read_root")]
    pub fn global(&self) -> Result<Option<TableRef>, Refusal> {
        Ok(self.root(0, 0)?.table())
    }

    /// The registry, a table for the host.
    ///
    /// # Errors
    /// [`BadBuffers`](Refusal::BadBuffers) and [`Damaged`](Refusal::Damaged), as every call.
    ///
    /// ```
    /// # use collector::{Heap, Sizes};
    /// # let mut heap = Heap::new(Sizes::default())?;
    /// let registry = heap.registry()?.expect("every heap is made with it");
    /// heap.table_set(registry, 0, true)?;
    /// # Ok::<(), collector::Refusal>(())
    /// ```
    #[doc(alias = "sieddesan_read_root")]
    pub fn registry(&self) -> Result<Option<TableRef>, Refusal> {
        Ok(self.root(1, 0)?.table())
    }

    /// The string `__mode`, the key by which a metatable makes tables weak.
    ///
    /// # Errors
    /// [`BadBuffers`](Refusal::BadBuffers) and [`Damaged`](Refusal::Damaged), as every call.
    ///
    /// ```
    /// # use collector::{Heap, Sizes};
    /// # let mut heap = Heap::new(Sizes::default())?;
    /// assert_eq!(heap.mode_name()?, Some(heap.make_string(b"__mode")?));
    /// # Ok::<(), collector::Refusal>(())
    /// ```
    #[doc(alias = "sieddesan_read_root")]
    pub fn mode_name(&self) -> Result<Option<StringRef>, Refusal> {
        Ok(self.root(2, 0)?.string())
    }

    /// The string `__gc`, the key by which a metatable has a finalizer.
    ///
    /// # Errors
    /// [`BadBuffers`](Refusal::BadBuffers) and [`Damaged`](Refusal::Damaged), as every call.
    ///
    /// ```
    /// # use collector::{Heap, Sizes};
    /// # let mut heap = Heap::new(Sizes::default())?;
    /// assert_eq!(heap.gc_name()?, Some(heap.make_string(b"__gc")?));
    /// # Ok::<(), collector::Refusal>(())
    /// ```
    #[doc(alias = "sieddesan_read_root")]
    pub fn gc_name(&self) -> Result<Option<StringRef>, Refusal> {
        Ok(self.root(3, 0)?.string())
    }

    /// The metatable of a type, if it has one.
    ///
    /// # Errors
    /// [`BadBuffers`](Refusal::BadBuffers) and [`Damaged`](Refusal::Damaged), as every call.
    ///
    /// ```
    /// # use collector::{Heap, Sizes, Type};
    /// # let mut heap = Heap::new(Sizes::default())?;
    /// assert_eq!(heap.type_metatable(Type::Nil)?, None);
    /// # Ok::<(), collector::Refusal>(())
    /// ```
    #[doc(alias = "sieddesan_read_root")]
    pub fn type_metatable(&self, of: Type) -> Result<Option<TableRef>, Refusal> {
        Ok(self.root(4, of as u32)?.table())
    }
}
