//! Threads. A thread is an object like others: it holds what its stack and its lists name.

use crate::answer::{Read, answered, gives};
use crate::{Heap, Refusal, TableRef, ThreadRef, UpvalueRef, Value, engine};

/// Calls that change a thread.
impl<W: AsMut<[u32]>, B: AsMut<[u8]>> Heap<W, B> {
    /// A value on top of a thread's stack.
    ///
    /// # Errors
    /// [`OutOfRange`](Refusal::OutOfRange) if the stack is full, [`Stale`](Refusal::Stale) for the
    /// thread or the value.
    ///
    /// ```
    /// # use collector::{Heap, Refusal, Sizes};
    /// # let mut heap = Heap::new(Sizes::default())?;
    /// let global = heap.make_table(0, 0)?;
    /// let thread = heap.make_thread(global, 1)?;
    /// heap.thread_push(thread, true)?;
    /// assert_eq!(heap.thread_push(thread, true), Err(Refusal::OutOfRange));
    /// # Ok::<(), Refusal>(())
    /// ```
    #[doc(alias = "sieddesan_thread_push")]
    pub fn thread_push(&mut self, th: ThreadRef, v: impl Into<Value>) -> Result<(), Refusal> {
        let [tag, low, high] = v.into().words();
        let (w, b) = self.buffers();
        let (index, generation) = (th.index(), th.generation());
        answered(engine::thread_push(w, b, index, generation, tag, low, high))
    }

    /// The value on top of a thread's stack is taken off. It stays at its place.
    ///
    /// # Errors
    /// [`Stale`](Refusal::Stale), then [`WrongState`](Refusal::WrongState) if the stack is empty.
    ///
    /// ```
    /// # use collector::{Heap, Refusal, Sizes, Value};
    /// # let mut heap = Heap::new(Sizes::default())?;
    /// let global = heap.make_table(0, 0)?;
    /// let thread = heap.make_thread(global, 4)?;
    /// heap.thread_push(thread, 8)?;
    /// assert_eq!(heap.thread_pop(thread)?, Value::Number(8.0));
    /// assert_eq!(heap.thread_pop(thread), Err(Refusal::WrongState));
    /// # Ok::<(), Refusal>(())
    /// ```
    #[doc(alias = "sieddesan_thread_pop")]
    pub fn thread_pop(&mut self, th: ThreadRef) -> Result<Value, Refusal> {
        let (w, b) = self.buffers();
        gives(|out| engine::thread_pop(w, b, th.index(), th.generation(), out)).map(Value::of)
    }

    /// Place `i` of a thread's stack takes a value, also at or above the top.
    ///
    /// # Errors
    /// [`OutOfRange`](Refusal::OutOfRange) past the stack's size, [`Stale`](Refusal::Stale) for the
    /// thread or the value.
    ///
    /// ```
    /// # use collector::{Heap, Sizes, Value};
    /// # let mut heap = Heap::new(Sizes::default())?;
    /// # let global = heap.make_table(0, 0)?;
    /// let thread = heap.make_thread(global, 4)?;
    /// heap.thread_stack_set(thread, 3, true)?;
    /// assert_eq!(heap.thread_stack_get(thread, 3)?, Value::Bool(true));
    /// # Ok::<(), collector::Refusal>(())
    /// ```
    #[doc(alias = "sieddesan_thread_set")]
    pub fn thread_stack_set(
        &mut self,
        th: ThreadRef,
        i: u32,
        v: impl Into<Value>,
    ) -> Result<(), Refusal> {
        let [tag, low, high] = v.into().words();
        let (w, b) = self.buffers();
        let (index, generation) = (th.index(), th.generation());
        answered(engine::thread_set(
            w, b, index, generation, i, tag, low, high,
        ))
    }

    /// The top of a thread's stack becomes `n`. What is above it is held no more; raising fills
    /// with nil.
    ///
    /// # Errors
    /// [`Stale`](Refusal::Stale), then [`OutOfRange`](Refusal::OutOfRange) past the stack's size.
    ///
    /// ```
    /// # use collector::{Heap, Sizes};
    /// # let mut heap = Heap::new(Sizes::default())?;
    /// # let global = heap.make_table(0, 0)?;
    /// let thread = heap.make_thread(global, 4)?;
    /// heap.thread_set_top(thread, 2)?;
    /// assert_eq!(heap.thread_top(thread)?, 2);
    /// # Ok::<(), collector::Refusal>(())
    /// ```
    #[doc(alias = "sieddesan_thread_set_top")]
    pub fn thread_set_top(&mut self, th: ThreadRef, n: u32) -> Result<(), Refusal> {
        let (w, b) = self.buffers();
        answered(engine::thread_set_top(w, b, th.index(), th.generation(), n))
    }

    /// An upvalue at the end of a thread's open list, which has 16 places.
    ///
    /// # Errors
    /// [`OutOfRange`](Refusal::OutOfRange) if the list is full, [`Stale`](Refusal::Stale) for
    /// either.
    ///
    /// ```
    /// # use collector::{Heap, Sizes};
    /// # let mut heap = Heap::new(Sizes::default())?;
    /// # let global = heap.make_table(0, 0)?;
    /// let (thread, upvalue) = (heap.make_thread(global, 4)?, heap.make_open_upvalue()?);
    /// heap.thread_open_push(thread, upvalue)?;
    /// assert_eq!(heap.thread_open_get(thread, 0)?, upvalue);
    /// # Ok::<(), collector::Refusal>(())
    /// ```
    #[doc(alias = "sieddesan_thread_open_push")]
    pub fn thread_open_push(&mut self, th: ThreadRef, u: UpvalueRef) -> Result<(), Refusal> {
        let (w, b) = self.buffers();
        let (index, generation) = (th.index(), th.generation());
        let code = engine::thread_open_push(w, b, index, generation, u.index(), u.generation());
        answered(code)
    }

    /// The first `n` of a thread's open list stay.
    ///
    /// # Errors
    /// [`Stale`](Refusal::Stale), then [`OutOfRange`](Refusal::OutOfRange) if there are fewer.
    ///
    /// ```
    /// # use collector::{Heap, Refusal, Sizes};
    /// # let mut heap = Heap::new(Sizes::default())?;
    /// # let global = heap.make_table(0, 0)?;
    /// let thread = heap.make_thread(global, 4)?;
    /// heap.thread_open_cut(thread, 0)?;
    /// assert_eq!(heap.thread_open_cut(thread, 1), Err(Refusal::OutOfRange));
    /// # Ok::<(), Refusal>(())
    /// ```
    #[doc(alias = "sieddesan_thread_open_cut")]
    pub fn thread_open_cut(&mut self, th: ThreadRef, n: u32) -> Result<(), Refusal> {
        let (w, b) = self.buffers();
        answered(engine::thread_open_cut(
            w,
            b,
            th.index(),
            th.generation(),
            n,
        ))
    }

    /// An upvalue at the end of a thread's suspended list, which has 16 places.
    ///
    /// # Errors
    /// [`OutOfRange`](Refusal::OutOfRange) if the list is full, [`Stale`](Refusal::Stale) for
    /// either.
    ///
    /// ```
    /// # use collector::{Heap, Sizes};
    /// # let mut heap = Heap::new(Sizes::default())?;
    /// # let global = heap.make_table(0, 0)?;
    /// let (thread, upvalue) = (heap.make_thread(global, 4)?, heap.make_open_upvalue()?);
    /// heap.thread_suspended_push(thread, upvalue)?;
    /// assert_eq!(heap.thread_suspended_get(thread, 0)?, upvalue);
    /// # Ok::<(), collector::Refusal>(())
    /// ```
    #[doc(alias = "sieddesan_thread_suspended_push")]
    pub fn thread_suspended_push(&mut self, th: ThreadRef, u: UpvalueRef) -> Result<(), Refusal> {
        let (w, b) = self.buffers();
        let (index, of) = (th.index(), th.generation());
        let code = engine::thread_suspended_push(w, b, index, of, u.index(), u.generation());
        answered(code)
    }

    /// The first `n` of a thread's suspended list stay.
    ///
    /// # Errors
    /// [`Stale`](Refusal::Stale), then [`OutOfRange`](Refusal::OutOfRange) if there are fewer.
    ///
    /// ```
    /// # use collector::{Heap, Sizes};
    /// # let mut heap = Heap::new(Sizes::default())?;
    /// # let global = heap.make_table(0, 0)?;
    /// let (thread, upvalue) = (heap.make_thread(global, 4)?, heap.make_open_upvalue()?);
    /// heap.thread_suspended_push(thread, upvalue)?;
    /// heap.thread_suspended_cut(thread, 0)?;
    /// assert_eq!(heap.thread_suspended_count(thread)?, 0);
    /// # Ok::<(), collector::Refusal>(())
    /// ```
    #[doc(alias = "sieddesan_thread_suspended_cut")]
    pub fn thread_suspended_cut(&mut self, th: ThreadRef, n: u32) -> Result<(), Refusal> {
        let (w, b) = self.buffers();
        let (index, generation) = (th.index(), th.generation());
        answered(engine::thread_suspended_cut(w, b, index, generation, n))
    }

    /// A thread's global table.
    ///
    /// # Errors
    /// [`Stale`](Refusal::Stale) for either.
    ///
    /// ```
    /// # use collector::{Heap, Sizes};
    /// # let mut heap = Heap::new(Sizes::default())?;
    /// # let global = heap.make_table(0, 0)?;
    /// let (thread, other) = (heap.make_thread(global, 4)?, heap.make_table(0, 8)?);
    /// heap.thread_set_global(thread, other)?;
    /// assert_eq!(heap.thread_global(thread)?, Some(other));
    /// # Ok::<(), collector::Refusal>(())
    /// ```
    #[doc(alias = "sieddesan_thread_set_global")]
    pub fn thread_set_global(&mut self, th: ThreadRef, t: TableRef) -> Result<(), Refusal> {
        let (w, b) = self.buffers();
        let (index, generation) = (th.index(), th.generation());
        let code = engine::thread_set_global(w, b, index, generation, t.index(), t.generation());
        answered(code)
    }

    /// A thread's error value. The thread does not hold it.
    ///
    /// # Errors
    /// [`Stale`](Refusal::Stale) for either.
    ///
    /// ```
    /// # use collector::{Heap, Sizes, Value};
    /// # let mut heap = Heap::new(Sizes::default())?;
    /// # let global = heap.make_table(0, 0)?;
    /// let thread = heap.make_thread(global, 4)?;
    /// heap.thread_set_error(thread, 5)?;
    /// assert_eq!(heap.thread_error(thread)?, Value::Number(5.0));
    /// # Ok::<(), collector::Refusal>(())
    /// ```
    #[doc(alias = "sieddesan_thread_set_error")]
    pub fn thread_set_error(&mut self, th: ThreadRef, v: impl Into<Value>) -> Result<(), Refusal> {
        let [tag, low, high] = v.into().words();
        let (w, b) = self.buffers();
        let (index, generation) = (th.index(), th.generation());
        answered(engine::thread_set_error(
            w, b, index, generation, tag, low, high,
        ))
    }

    /// A thread's hook function.
    ///
    /// # Errors
    /// [`Stale`](Refusal::Stale) for either.
    ///
    /// ```
    /// # use collector::{Heap, Sizes};
    /// # let mut heap = Heap::new(Sizes::default())?;
    /// # let global = heap.make_table(0, 0)?;
    /// let (thread, hook) = (heap.make_thread(global, 4)?, heap.make_rust_closure(None, &[])?);
    /// heap.thread_set_hook(thread, hook)?;
    /// assert_eq!(heap.thread_hook(thread)?, hook.into());
    /// # Ok::<(), collector::Refusal>(())
    /// ```
    #[doc(alias = "sieddesan_thread_set_hook")]
    pub fn thread_set_hook(&mut self, th: ThreadRef, v: impl Into<Value>) -> Result<(), Refusal> {
        let [tag, low, high] = v.into().words();
        let (w, b) = self.buffers();
        let (index, generation) = (th.index(), th.generation());
        answered(engine::thread_set_hook(
            w, b, index, generation, tag, low, high,
        ))
    }
}

/// Reads of threads.
impl<W: AsRef<[u32]>, B: AsRef<[u8]>> Heap<W, B> {
    /// A question by its place in the header's list.
    fn thread(&self, th: ThreadRef, field: u32, at: u32) -> Result<Read, Refusal> {
        let (index, generation) = (th.index(), th.generation());
        self.ask(|w, b, out| engine::read_thread(w, b, index, generation, field, at, out))
    }

    /// A thread's global table. Only damaged words have none.
    ///
    /// # Errors
    /// [`Stale`](Refusal::Stale).
    ///
    /// ```
    /// # use collector::{Heap, Sizes};
    /// # let mut heap = Heap::new(Sizes::default())?;
    /// let global = heap.make_table(0, 0)?;
    /// let thread = heap.make_thread(global, 4)?;
    /// assert_eq!(heap.thread_global(thread)?, Some(global));
    /// # Ok::<(), collector::Refusal>(())
    /// ```
    #[doc(alias = "sieddesan_read_thread")]
    pub fn thread_global(&self, th: ThreadRef) -> Result<Option<TableRef>, Refusal> {
        Ok(self.thread(th, 0, 0)?.table())
    }

    /// A thread's hook function.
    ///
    /// # Errors
    /// [`Stale`](Refusal::Stale).
    ///
    /// ```
    /// # use collector::{Heap, Sizes};
    /// # let mut heap = Heap::new(Sizes::default())?;
    /// # let global = heap.make_table(0, 0)?;
    /// let thread = heap.make_thread(global, 4)?;
    /// assert!(heap.thread_hook(thread)?.is_nil());
    /// # Ok::<(), collector::Refusal>(())
    /// ```
    #[doc(alias = "sieddesan_read_thread")]
    pub fn thread_hook(&self, th: ThreadRef) -> Result<Value, Refusal> {
        Ok(self.thread(th, 1, 0)?.value())
    }

    /// A thread's error value.
    ///
    /// # Errors
    /// [`Stale`](Refusal::Stale).
    ///
    /// ```
    /// # use collector::{Heap, Sizes};
    /// # let mut heap = Heap::new(Sizes::default())?;
    /// # let global = heap.make_table(0, 0)?;
    /// let thread = heap.make_thread(global, 4)?;
    /// assert!(heap.thread_error(thread)?.is_nil());
    /// # Ok::<(), collector::Refusal>(())
    /// ```
    #[doc(alias = "sieddesan_read_thread")]
    pub fn thread_error(&self, th: ThreadRef) -> Result<Value, Refusal> {
        Ok(self.thread(th, 2, 0)?.value())
    }

    /// How many places a thread's stack has.
    ///
    /// # Errors
    /// [`Stale`](Refusal::Stale).
    ///
    /// ```
    /// # use collector::{Heap, Sizes};
    /// # let mut heap = Heap::new(Sizes::default())?;
    /// # let global = heap.make_table(0, 0)?;
    /// let thread = heap.make_thread(global, 4)?;
    /// assert_eq!(heap.thread_stack_len(thread)?, 4);
    /// # Ok::<(), collector::Refusal>(())
    /// ```
    #[doc(alias = "sieddesan_read_thread")]
    pub fn thread_stack_len(&self, th: ThreadRef) -> Result<u32, Refusal> {
        Ok(self.thread(th, 3, 0)?.small())
    }

    /// The top of a thread's stack.
    ///
    /// # Errors
    /// [`Stale`](Refusal::Stale).
    ///
    /// ```
    /// # use collector::{Heap, Sizes};
    /// # let mut heap = Heap::new(Sizes::default())?;
    /// # let global = heap.make_table(0, 0)?;
    /// let thread = heap.make_thread(global, 4)?;
    /// assert_eq!(heap.thread_top(thread)?, 0);
    /// # Ok::<(), collector::Refusal>(())
    /// ```
    #[doc(alias = "sieddesan_read_thread")]
    pub fn thread_top(&self, th: ThreadRef) -> Result<u32, Refusal> {
        Ok(self.thread(th, 4, 0)?.small())
    }

    /// How many upvalues are on a thread's open list.
    ///
    /// # Errors
    /// [`Stale`](Refusal::Stale).
    ///
    /// ```
    /// # use collector::{Heap, Sizes};
    /// # let mut heap = Heap::new(Sizes::default())?;
    /// # let global = heap.make_table(0, 0)?;
    /// let (thread, upvalue) = (heap.make_thread(global, 4)?, heap.make_open_upvalue()?);
    /// heap.thread_open_push(thread, upvalue)?;
    /// assert_eq!(heap.thread_open_count(thread)?, 1);
    /// # Ok::<(), collector::Refusal>(())
    /// ```
    #[doc(alias = "sieddesan_read_thread")]
    pub fn thread_open_count(&self, th: ThreadRef) -> Result<u32, Refusal> {
        Ok(self.thread(th, 5, 0)?.small())
    }

    /// How many upvalues are on a thread's suspended list.
    ///
    /// # Errors
    /// [`Stale`](Refusal::Stale).
    ///
    /// ```
    /// # use collector::{Heap, Sizes};
    /// # let mut heap = Heap::new(Sizes::default())?;
    /// # let global = heap.make_table(0, 0)?;
    /// let (thread, upvalue) = (heap.make_thread(global, 4)?, heap.make_open_upvalue()?);
    /// heap.thread_suspended_push(thread, upvalue)?;
    /// assert_eq!(heap.thread_suspended_count(thread)?, 1);
    /// # Ok::<(), collector::Refusal>(())
    /// ```
    #[doc(alias = "sieddesan_read_thread")]
    pub fn thread_suspended_count(&self, th: ThreadRef) -> Result<u32, Refusal> {
        Ok(self.thread(th, 6, 0)?.small())
    }

    /// Upvalue `i` of a thread's open list.
    ///
    /// # Errors
    /// [`Stale`](Refusal::Stale), then [`OutOfRange`](Refusal::OutOfRange) from the end of the list
    /// on.
    ///
    /// ```
    /// # use collector::{Heap, Refusal, Sizes};
    /// # let mut heap = Heap::new(Sizes::default())?;
    /// # let global = heap.make_table(0, 0)?;
    /// let thread = heap.make_thread(global, 4)?;
    /// assert_eq!(heap.thread_open_get(thread, 0), Err(Refusal::OutOfRange));
    /// # Ok::<(), Refusal>(())
    /// ```
    #[doc(alias = "sieddesan_read_thread")]
    pub fn thread_open_get(&self, th: ThreadRef, i: u32) -> Result<UpvalueRef, Refusal> {
        Ok(self.thread(th, 7, i)?.upvalue())
    }

    /// Upvalue `i` of a thread's suspended list.
    ///
    /// # Errors
    /// [`Stale`](Refusal::Stale), then [`OutOfRange`](Refusal::OutOfRange) from the end of the list
    /// on.
    ///
    /// ```
    /// # use collector::{Heap, Refusal, Sizes};
    /// # let mut heap = Heap::new(Sizes::default())?;
    /// # let global = heap.make_table(0, 0)?;
    /// let thread = heap.make_thread(global, 4)?;
    /// assert_eq!(heap.thread_suspended_get(thread, 0), Err(Refusal::OutOfRange));
    /// # Ok::<(), Refusal>(())
    /// ```
    #[doc(alias = "sieddesan_read_thread")]
    pub fn thread_suspended_get(&self, th: ThreadRef, i: u32) -> Result<UpvalueRef, Refusal> {
        Ok(self.thread(th, 8, i)?.upvalue())
    }

    /// The value at place `i` of a thread's stack, also at or above the top.
    ///
    /// # Errors
    /// [`Stale`](Refusal::Stale), then [`OutOfRange`](Refusal::OutOfRange) past the stack's size.
    ///
    /// ```
    /// # use collector::{Heap, Refusal, Sizes, Value};
    /// # let mut heap = Heap::new(Sizes::default())?;
    /// # let global = heap.make_table(0, 0)?;
    /// let thread = heap.make_thread(global, 4)?;
    /// assert_eq!(heap.thread_stack_get(thread, 0)?, Value::Nil);
    /// assert_eq!(heap.thread_stack_get(thread, 4), Err(Refusal::OutOfRange));
    /// # Ok::<(), Refusal>(())
    /// ```
    #[doc(alias = "sieddesan_read_thread")]
    pub fn thread_stack_get(&self, th: ThreadRef, i: u32) -> Result<Value, Refusal> {
        Ok(self.thread(th, 9, i)?.value())
    }
}
