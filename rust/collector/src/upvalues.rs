//! Upvalues.

use crate::answer::{Read, answered};
use crate::{Heap, Refusal, UpvalueRef, Value, engine};

/// Calls that store in upvalues.
impl<W: AsMut<[u32]>, B: AsMut<[u8]>> Heap<W, B> {
    /// An open upvalue is closed over a value.
    ///
    /// # Errors
    /// [`WrongState`](Refusal::WrongState) if it is closed, [`Stale`](Refusal::Stale) for the
    /// upvalue or the value.
    ///
    /// ```
    /// # use collector::{Heap, Refusal, Sizes, Value};
    /// # let mut heap = Heap::new(Sizes::default())?;
    /// let upvalue = heap.make_open_upvalue()?;
    /// heap.upvalue_close(upvalue, 3)?;
    /// assert_eq!(heap.upvalue_value(upvalue)?, Value::Number(3.0));
    /// assert_eq!(heap.upvalue_close(upvalue, 4), Err(Refusal::WrongState));
    /// # Ok::<(), Refusal>(())
    /// ```
    #[doc(alias = "sieddesan_upvalue_close")]
    pub fn upvalue_close(&mut self, u: UpvalueRef, v: impl Into<Value>) -> Result<(), Refusal> {
        let [tag, low, high] = v.into().words();
        let (w, b) = self.buffers();
        let (index, generation) = (u.index(), u.generation());
        answered(engine::upvalue_close(
            w, b, index, generation, tag, low, high,
        ))
    }

    /// A closed upvalue takes a value.
    ///
    /// # Errors
    /// [`WrongState`](Refusal::WrongState) if it is open, [`Stale`](Refusal::Stale) for the upvalue
    /// or the value.
    ///
    /// ```
    /// # use collector::{Heap, Refusal, Sizes};
    /// # let mut heap = Heap::new(Sizes::default())?;
    /// let closed = heap.make_closed_upvalue(1)?;
    /// heap.upvalue_set(closed, 2)?;
    /// let open = heap.make_open_upvalue()?;
    /// assert_eq!(heap.upvalue_set(open, 2), Err(Refusal::WrongState));
    /// # Ok::<(), Refusal>(())
    /// ```
    #[doc(alias = "sieddesan_upvalue_set")]
    pub fn upvalue_set(&mut self, u: UpvalueRef, v: impl Into<Value>) -> Result<(), Refusal> {
        let [tag, low, high] = v.into().words();
        let (w, b) = self.buffers();
        let (index, generation) = (u.index(), u.generation());
        answered(engine::upvalue_set(w, b, index, generation, tag, low, high))
    }
}

/// Reads of upvalues.
impl<W: AsRef<[u32]>, B: AsRef<[u8]>> Heap<W, B> {
    /// A question by its place in the header's list.
    fn upvalue(&self, u: UpvalueRef, field: u32) -> Result<Read, Refusal> {
        let (index, generation) = (u.index(), u.generation());
        self.ask(|w, b, out| engine::read_upvalue(w, b, index, generation, field, out))
    }

    /// Whether an upvalue is closed.
    ///
    /// # Errors
    /// [`Stale`](Refusal::Stale).
    ///
    /// ```
    /// # use collector::{Heap, Sizes, Value};
    /// # let mut heap = Heap::new(Sizes::default())?;
    /// let upvalue = heap.make_closed_upvalue(Value::Nil)?;
    /// assert!(heap.upvalue_is_closed(upvalue)?);
    /// # Ok::<(), collector::Refusal>(())
    /// ```
    #[doc(alias = "sieddesan_read_upvalue")]
    pub fn upvalue_is_closed(&self, u: UpvalueRef) -> Result<bool, Refusal> {
        Ok(self.upvalue(u, 0)?.flag())
    }

    /// The value that an upvalue is closed over; nil if it is open.
    ///
    /// # Errors
    /// [`Stale`](Refusal::Stale).
    ///
    /// ```
    /// # use collector::{Heap, Sizes, Value};
    /// # let mut heap = Heap::new(Sizes::default())?;
    /// let upvalue = heap.make_closed_upvalue(false)?;
    /// assert_eq!(heap.upvalue_value(upvalue)?, Value::Bool(false));
    /// # Ok::<(), collector::Refusal>(())
    /// ```
    #[doc(alias = "sieddesan_read_upvalue")]
    pub fn upvalue_value(&self, u: UpvalueRef) -> Result<Value, Refusal> {
        Ok(self.upvalue(u, 1)?.value())
    }
}
