//! Tables.

use crate::answer::{Read, answered, maybe};
use crate::{Heap, Refusal, TableRef, Value, engine};

/// Calls that store in tables.
impl<W: AsMut<[u32]>, B: AsMut<[u8]>> Heap<W, B> {
    /// Place `i` of a table's array takes a value.
    ///
    /// # Errors
    /// [`OutOfRange`](Refusal::OutOfRange) for the place, [`Stale`](Refusal::Stale) for the table
    /// or the value.
    ///
    /// ```
    /// # use collector::{Heap, Refusal, Sizes};
    /// # let mut heap = Heap::new(Sizes::default())?;
    /// let table = heap.make_table(2, 0)?;
    /// heap.table_set(table, 1, 4.5)?;
    /// assert_eq!(heap.table_get(table, 1)?, 4.5.into());
    /// assert_eq!(heap.table_set(table, 2, 4.5), Err(Refusal::OutOfRange));
    /// # Ok::<(), Refusal>(())
    /// ```
    #[doc(alias = "sieddesan_table_set")]
    pub fn table_set(&mut self, t: TableRef, i: u32, v: impl Into<Value>) -> Result<(), Refusal> {
        let [tag, low, high] = v.into().words();
        let (w, b) = self.buffers();
        let (index, generation) = (t.index(), t.generation());
        answered(engine::table_set(
            w, b, index, generation, i, tag, low, high,
        ))
    }

    /// Node `j` of a table takes a key and a value; nil for both empties it. Which node a key
    /// belongs to, the host decides: no two nodes may have equal keys, and steps look names up in
    /// node order.
    ///
    /// # Errors
    /// [`OutOfRange`](Refusal::OutOfRange) for the place, a NaN key, a nil key with a value that is
    /// not nil, or a key equal to another node's; [`Stale`](Refusal::Stale) for the table, key or
    /// value.
    ///
    /// ```
    /// # use collector::{Heap, Refusal, Sizes, Value};
    /// # let mut heap = Heap::new(Sizes::default())?;
    /// let table = heap.make_table(0, 2)?;
    /// let stripe = heap.make_string(b"stripe")?;
    /// heap.table_set_node(table, 0, stripe, 12)?;
    /// assert_eq!(heap.table_value(table, 0)?, Value::Number(12.0));
    /// assert_eq!(heap.table_set_node(table, 1, stripe, 13), Err(Refusal::OutOfRange));
    /// # Ok::<(), Refusal>(())
    /// ```
    #[doc(alias = "sieddesan_table_set_node")]
    pub fn table_set_node(
        &mut self,
        t: TableRef,
        j: u32,
        key: impl Into<Value>,
        v: impl Into<Value>,
    ) -> Result<(), Refusal> {
        let ([k, first, second], [tag, low, high]) = (key.into().words(), v.into().words());
        let (w, b) = self.buffers();
        let (index, of) = (t.index(), t.generation());
        let code = engine::table_set_node(w, b, index, of, j, k, first, second, tag, low, high);
        answered(code)
    }

    /// A table takes a metatable, or loses it. Its `__mode` makes the table weak: `k` in it for
    /// keys, `v` for values.
    ///
    /// # Errors
    /// [`Stale`](Refusal::Stale) for either.
    ///
    /// ```
    /// # use collector::{Heap, Sizes};
    /// # let mut heap = Heap::new(Sizes::default())?;
    /// let (mode, values) = (heap.mode_name()?, heap.make_string(b"v")?);
    /// let metatable = heap.make_table(0, 1)?;
    /// heap.table_set_node(metatable, 0, mode, values)?;
    ///
    /// let weak = heap.make_table(8, 0)?;
    /// heap.table_set_metatable(weak, metatable)?;
    /// assert_eq!(heap.table_metatable(weak)?, Some(metatable));
    /// heap.table_set_metatable(weak, None)?;
    /// # Ok::<(), collector::Refusal>(())
    /// ```
    #[doc(alias = "sieddesan_table_set_meta")]
    pub fn table_set_metatable(
        &mut self,
        t: TableRef,
        meta: impl Into<Option<TableRef>>,
    ) -> Result<(), Refusal> {
        let [some, index, of] = maybe(meta.into());
        let (w, b) = self.buffers();
        let (table, generation) = (t.index(), t.generation());
        answered(engine::table_set_meta(
            w, b, table, generation, some, index, of,
        ))
    }
}

/// Reads of tables.
impl<W: AsRef<[u32]>, B: AsRef<[u8]>> Heap<W, B> {
    /// A question by its place in the header's list.
    fn table(&self, t: TableRef, field: u32, at: u32) -> Result<Read, Refusal> {
        let (index, generation) = (t.index(), t.generation());
        self.ask(|w, b, out| engine::read_table(w, b, index, generation, field, at, out))
    }

    /// The metatable of a table, if it has one.
    ///
    /// # Errors
    /// [`Stale`](Refusal::Stale).
    ///
    /// ```
    /// # use collector::{Heap, Sizes};
    /// # let mut heap = Heap::new(Sizes::default())?;
    /// let table = heap.make_table(0, 0)?;
    /// assert_eq!(heap.table_metatable(table)?, None);
    /// # Ok::<(), collector::Refusal>(())
    /// ```
    #[doc(alias = "sieddesan_read_table")]
    pub fn table_metatable(&self, t: TableRef) -> Result<Option<TableRef>, Refusal> {
        Ok(self.table(t, 0, 0)?.table())
    }

    /// How many places the array of a table has.
    ///
    /// # Errors
    /// [`Stale`](Refusal::Stale).
    ///
    /// ```
    /// # use collector::{Heap, Sizes};
    /// # let mut heap = Heap::new(Sizes::default())?;
    /// let table = heap.make_table(5, 0)?;
    /// assert_eq!(heap.table_array_len(table)?, 5);
    /// # Ok::<(), collector::Refusal>(())
    /// ```
    #[doc(alias = "sieddesan_read_table")]
    pub fn table_array_len(&self, t: TableRef) -> Result<u32, Refusal> {
        Ok(self.table(t, 1, 0)?.small())
    }

    /// How many nodes a table has, empty ones too.
    ///
    /// # Errors
    /// [`Stale`](Refusal::Stale).
    ///
    /// ```
    /// # use collector::{Heap, Sizes};
    /// # let mut heap = Heap::new(Sizes::default())?;
    /// let table = heap.make_table(0, 16)?;
    /// assert_eq!(heap.table_node_count(table)?, 16);
    /// # Ok::<(), collector::Refusal>(())
    /// ```
    #[doc(alias = "sieddesan_read_table")]
    pub fn table_node_count(&self, t: TableRef) -> Result<u32, Refusal> {
        Ok(self.table(t, 2, 0)?.small())
    }

    /// The value at place `i` of a table's array.
    ///
    /// # Errors
    /// [`Stale`](Refusal::Stale), then [`OutOfRange`](Refusal::OutOfRange) for the place.
    ///
    /// ```
    /// # use collector::{Heap, Sizes, Value};
    /// # let mut heap = Heap::new(Sizes::default())?;
    /// let table = heap.make_table(1, 0)?;
    /// assert_eq!(heap.table_get(table, 0)?, Value::Nil);
    /// # Ok::<(), collector::Refusal>(())
    /// ```
    #[doc(alias = "sieddesan_read_table")]
    pub fn table_get(&self, t: TableRef, i: u32) -> Result<Value, Refusal> {
        Ok(self.table(t, 3, i)?.value())
    }

    /// The key of node `j`, nil if it is empty. A node whose value is nil may have a key that
    /// names nothing any more.
    ///
    /// # Errors
    /// [`Stale`](Refusal::Stale), then [`OutOfRange`](Refusal::OutOfRange) for the place.
    ///
    /// ```
    /// # use collector::{Heap, Sizes, Value};
    /// # let mut heap = Heap::new(Sizes::default())?;
    /// let table = heap.make_table(0, 1)?;
    /// heap.table_set_node(table, 0, true, 1)?;
    /// assert_eq!(heap.table_key(table, 0)?, Value::Bool(true));
    /// # Ok::<(), collector::Refusal>(())
    /// ```
    #[doc(alias = "sieddesan_read_table")]
    pub fn table_key(&self, t: TableRef, j: u32) -> Result<Value, Refusal> {
        Ok(self.table(t, 4, j)?.value())
    }

    /// The value of node `j`.
    ///
    /// # Errors
    /// [`Stale`](Refusal::Stale), then [`OutOfRange`](Refusal::OutOfRange) for the place.
    ///
    /// ```
    /// # use collector::{Heap, Refusal, Sizes};
    /// # let mut heap = Heap::new(Sizes::default())?;
    /// let table = heap.make_table(0, 1)?;
    /// assert!(heap.table_value(table, 0)?.is_nil());
    /// assert_eq!(heap.table_value(table, 1), Err(Refusal::OutOfRange));
    /// # Ok::<(), Refusal>(())
    /// ```
    #[doc(alias = "sieddesan_read_table")]
    pub fn table_value(&self, t: TableRef, j: u32) -> Result<Value, Refusal> {
        Ok(self.table(t, 5, j)?.value())
    }
}
