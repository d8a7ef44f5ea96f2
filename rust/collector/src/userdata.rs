//! Userdata.

use crate::answer::{Read, answered, maybe};
use crate::{Heap, Refusal, TableRef, UserdataRef, engine};

/// Calls that store in userdata.
impl<W: AsMut<[u32]>, B: AsMut<[u8]>> Heap<W, B> {
    /// A userdata takes a metatable, or loses it. If the metatable has a `__gc` that is not nil,
    /// the userdata is handed out once before it is freed: see [`Finalizer`](crate::Finalizer).
    ///
    /// # Errors
    /// [`Stale`](Refusal::Stale) for either.
    ///
    /// ```
    /// # use collector::{Heap, Sizes};
    /// # let mut heap = Heap::new(Sizes::default())?;
    /// let (lease, metatable) = (heap.make_userdata()?, heap.make_table(0, 1)?);
    /// heap.userdata_set_metatable(lease, metatable)?;
    /// assert_eq!(heap.userdata_metatable(lease)?, Some(metatable));
    /// heap.userdata_set_metatable(lease, None)?;
    /// # Ok::<(), collector::Refusal>(())
    /// ```
    #[doc(alias = "sieddesan_ud_set_meta")]
    pub fn userdata_set_metatable(
        &mut self,
        d: UserdataRef,
        meta: impl Into<Option<TableRef>>,
    ) -> Result<(), Refusal> {
        let [some, index, of] = maybe(meta.into());
        let (w, b) = self.buffers();
        let (userdata, generation) = (d.index(), d.generation());
        answered(engine::ud_set_meta(
            w, b, userdata, generation, some, index, of,
        ))
    }

    /// A userdata takes an environment, or loses it.
    ///
    /// # Errors
    /// [`Stale`](Refusal::Stale) for either.
    ///
    /// ```
    /// # use collector::{Heap, Sizes};
    /// # let mut heap = Heap::new(Sizes::default())?;
    /// let (lease, env) = (heap.make_userdata()?, heap.make_table(2, 0)?);
    /// heap.userdata_set_env(lease, env)?;
    /// assert_eq!(heap.userdata_env(lease)?, Some(env));
    /// # Ok::<(), collector::Refusal>(())
    /// ```
    #[doc(alias = "sieddesan_ud_set_env")]
    pub fn userdata_set_env(
        &mut self,
        d: UserdataRef,
        env: impl Into<Option<TableRef>>,
    ) -> Result<(), Refusal> {
        let [some, index, of] = maybe(env.into());
        let (w, b) = self.buffers();
        let (userdata, generation) = (d.index(), d.generation());
        answered(engine::ud_set_env(
            w, b, userdata, generation, some, index, of,
        ))
    }
}

/// Reads of userdata.
impl<W: AsRef<[u32]>, B: AsRef<[u8]>> Heap<W, B> {
    /// A question by its place in the header's list.
    fn userdata(&self, d: UserdataRef, field: u32) -> Result<Read, Refusal> {
        let (index, generation) = (d.index(), d.generation());
        self.ask(|w, b, out| engine::read_userdata(w, b, index, generation, field, out))
    }

    /// The metatable of a userdata, if it has one.
    ///
    /// # Errors
    /// [`Stale`](Refusal::Stale).
    ///
    /// ```
    /// # use collector::{Heap, Sizes};
    /// # let mut heap = Heap::new(Sizes::default())?;
    /// let lease = heap.make_userdata()?;
    /// assert_eq!(heap.userdata_metatable(lease)?, None);
    /// # Ok::<(), collector::Refusal>(())
    /// ```
    #[doc(alias = "sieddesan_read_userdata")]
    pub fn userdata_metatable(&self, d: UserdataRef) -> Result<Option<TableRef>, Refusal> {
        Ok(self.userdata(d, 0)?.table())
    }

    /// The environment of a userdata, if it has one.
    ///
    /// # Errors
    /// [`Stale`](Refusal::Stale).
    ///
    /// ```
    /// # use collector::{Heap, Sizes};
    /// # let mut heap = Heap::new(Sizes::default())?;
    /// let lease = heap.make_userdata()?;
    /// assert_eq!(heap.userdata_env(lease)?, None);
    /// # Ok::<(), collector::Refusal>(())
    /// ```
    #[doc(alias = "sieddesan_read_userdata")]
    pub fn userdata_env(&self, d: UserdataRef) -> Result<Option<TableRef>, Refusal> {
        Ok(self.userdata(d, 1)?.table())
    }

    /// The creation number of a userdata. Of several that are due at once, the one with the
    /// greatest is handed out first.
    ///
    /// # Errors
    /// [`Stale`](Refusal::Stale).
    ///
    /// ```
    /// # use collector::{Heap, Sizes};
    /// # let mut heap = Heap::new(Sizes::default())?;
    /// let (first, second) = (heap.make_userdata()?, heap.make_userdata()?);
    /// assert!(heap.userdata_creation(first)? < heap.userdata_creation(second)?);
    /// # Ok::<(), collector::Refusal>(())
    /// ```
    #[doc(alias = "sieddesan_read_userdata")]
    pub fn userdata_creation(&self, d: UserdataRef) -> Result<u64, Refusal> {
        Ok(self.userdata(d, 2)?.number())
    }

    /// Whether its finalizer has become due in some cycle. It becomes so only once.
    ///
    /// # Errors
    /// [`Stale`](Refusal::Stale).
    ///
    /// ```
    /// # use collector::{Heap, Sizes};
    /// # let mut heap = Heap::new(Sizes::default())?;
    /// let lease = heap.make_userdata()?;
    /// assert!(!heap.userdata_is_finalized(lease)?);
    /// # Ok::<(), collector::Refusal>(())
    /// ```
    #[doc(alias = "sieddesan_read_userdata")]
    pub fn userdata_is_finalized(&self, d: UserdataRef) -> Result<bool, Refusal> {
        Ok(self.userdata(d, 3)?.flag())
    }
}
