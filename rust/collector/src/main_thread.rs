//! The main thread: stack, open upvalues, frames, error value and hook function. All of it is
//! roots.

use crate::answer::{Read, answered, gives};
use crate::{Heap, Refusal, UpvalueRef, Value, engine};

/// Calls that change the main thread.
impl<W: AsMut<[u32]>, B: AsMut<[u8]>> Heap<W, B> {
    /// A value on top of the stack.
    ///
    /// # Errors
    /// [`OutOfRange`](Refusal::OutOfRange) if the stack is full, [`Stale`](Refusal::Stale).
    ///
    /// ```
    /// # use collector::{Heap, Sizes};
    /// # let mut heap = Heap::new(Sizes::default())?;
    /// let lease = heap.make_userdata()?;
    /// heap.push(lease)?;
    /// heap.collect()?.run_finalizers(|_| ())?;
    /// assert!(heap.is_live(lease)?);
    /// # Ok::<(), collector::Refusal>(())
    /// ```
    #[doc(alias = "sieddesan_push")]
    pub fn push(&mut self, v: impl Into<Value>) -> Result<(), Refusal> {
        let [tag, low, high] = v.into().words();
        let (w, b) = self.buffers();
        answered(engine::push(w, b, tag, low, high))
    }

    /// The value on top of the stack is taken off. It stays at its place, and the frame whose
    /// function stands there still holds it.
    ///
    /// # Errors
    /// [`WrongState`](Refusal::WrongState) if the stack is empty.
    ///
    /// ```
    /// # use collector::{Heap, Refusal, Sizes, Value};
    /// # let mut heap = Heap::new(Sizes::default())?;
    /// heap.push(true)?;
    /// assert_eq!(heap.pop()?, Value::Bool(true));
    /// assert_eq!(heap.pop(), Err(Refusal::WrongState));
    /// # Ok::<(), Refusal>(())
    /// ```
    #[doc(alias = "sieddesan_pop")]
    pub fn pop(&mut self) -> Result<Value, Refusal> {
        let (w, b) = self.buffers();
        gives(|out| engine::pop(w, b, out)).map(Value::of)
    }

    /// Place `i` of the stack takes a value, also at or above the top.
    ///
    /// # Errors
    /// [`OutOfRange`](Refusal::OutOfRange) past the stack's size, [`Stale`](Refusal::Stale).
    ///
    /// ```
    /// # use collector::{Heap, Sizes, Value};
    /// # let mut heap = Heap::new(Sizes::default())?;
    /// heap.stack_set(4, 1)?;
    /// assert_eq!(heap.stack_get(4)?, Value::Number(1.0));
    /// # Ok::<(), collector::Refusal>(())
    /// ```
    #[doc(alias = "sieddesan_stack_set")]
    pub fn stack_set(&mut self, i: u32, v: impl Into<Value>) -> Result<(), Refusal> {
        let [tag, low, high] = v.into().words();
        let (w, b) = self.buffers();
        answered(engine::stack_set(w, b, i, tag, low, high))
    }

    /// The top of the stack becomes `n`. What is above it is held no more; raising fills with nil.
    ///
    /// # Errors
    /// [`OutOfRange`](Refusal::OutOfRange) past the stack's size.
    ///
    /// ```
    /// # use collector::{Heap, Sizes};
    /// # let mut heap = Heap::new(Sizes::default())?;
    /// heap.set_top(3)?;
    /// assert_eq!(heap.top()?, 3);
    /// # Ok::<(), collector::Refusal>(())
    /// ```
    #[doc(alias = "sieddesan_set_top")]
    pub fn set_top(&mut self, n: u32) -> Result<(), Refusal> {
        let (w, b) = self.buffers();
        answered(engine::set_top(w, b, n))
    }

    /// An upvalue at the end of the open list.
    ///
    /// # Errors
    /// [`OutOfRange`](Refusal::OutOfRange) if the list is full, [`Stale`](Refusal::Stale).
    ///
    /// ```
    /// # use collector::{Heap, Sizes};
    /// # let mut heap = Heap::new(Sizes::default())?;
    /// let upvalue = heap.make_open_upvalue()?;
    /// heap.open_push(upvalue)?;
    /// assert_eq!(heap.open_get(0)?, upvalue);
    /// # Ok::<(), collector::Refusal>(())
    /// ```
    #[doc(alias = "sieddesan_open_push")]
    pub fn open_push(&mut self, u: UpvalueRef) -> Result<(), Refusal> {
        let (w, b) = self.buffers();
        answered(engine::open_push(w, b, u.index(), u.generation()))
    }

    /// The first `n` of the open list stay.
    ///
    /// # Errors
    /// [`OutOfRange`](Refusal::OutOfRange) if there are fewer.
    ///
    /// ```
    /// # use collector::{Heap, Sizes};
    /// # let mut heap = Heap::new(Sizes::default())?;
    /// let upvalue = heap.make_open_upvalue()?;
    /// heap.open_push(upvalue)?;
    /// heap.open_cut(0)?;
    /// assert_eq!(heap.open_count()?, 0);
    /// # Ok::<(), collector::Refusal>(())
    /// ```
    #[doc(alias = "sieddesan_open_cut")]
    pub fn open_cut(&mut self, n: u32) -> Result<(), Refusal> {
        let (w, b) = self.buffers();
        answered(engine::open_cut(w, b, n))
    }

    /// Frame `i` has its function at place `n` of the stack, at most 256. For each frame up to the
    /// current one that place is a root, also above the top.
    ///
    /// # Errors
    /// [`OutOfRange`](Refusal::OutOfRange) for either.
    ///
    /// ```
    /// # use collector::{Heap, Sizes};
    /// # let mut heap = Heap::new(Sizes::default())?;
    /// heap.set_frame(1, 5)?;
    /// assert_eq!(heap.frame(1)?, 5);
    /// # Ok::<(), collector::Refusal>(())
    /// ```
    #[doc(alias = "sieddesan_set_frame")]
    pub fn set_frame(&mut self, i: u32, n: u32) -> Result<(), Refusal> {
        let (w, b) = self.buffers();
        answered(engine::set_frame(w, b, i, n))
    }

    /// The current frame is `i`.
    ///
    /// # Errors
    /// [`OutOfRange`](Refusal::OutOfRange) past the frames.
    ///
    /// ```
    /// # use collector::{Heap, Sizes};
    /// # let mut heap = Heap::new(Sizes::default())?;
    /// heap.set_current_frame(2)?;
    /// assert_eq!(heap.current_frame()?, 2);
    /// # Ok::<(), collector::Refusal>(())
    /// ```
    #[doc(alias = "sieddesan_set_ci")]
    pub fn set_current_frame(&mut self, i: u32) -> Result<(), Refusal> {
        let (w, b) = self.buffers();
        answered(engine::set_ci(w, b, i))
    }

    /// The error value.
    ///
    /// # Errors
    /// [`Stale`](Refusal::Stale).
    ///
    /// ```
    /// # use collector::{Heap, Sizes};
    /// # let mut heap = Heap::new(Sizes::default())?;
    /// let message = heap.make_string(b"lease lost")?;
    /// heap.set_error(message)?;
    /// assert_eq!(heap.error()?.as_string(), Some(message));
    /// # Ok::<(), collector::Refusal>(())
    /// ```
    #[doc(alias = "sieddesan_set_error")]
    pub fn set_error(&mut self, v: impl Into<Value>) -> Result<(), Refusal> {
        let [tag, low, high] = v.into().words();
        let (w, b) = self.buffers();
        answered(engine::set_error(w, b, tag, low, high))
    }

    /// The hook function.
    ///
    /// # Errors
    /// [`Stale`](Refusal::Stale).
    ///
    /// ```
    /// # use collector::{Heap, Sizes};
    /// # let mut heap = Heap::new(Sizes::default())?;
    /// let hook = heap.make_rust_closure(None, &[])?;
    /// heap.set_hook(hook)?;
    /// assert_eq!(heap.hook()?.as_function(), Some(hook));
    /// # Ok::<(), collector::Refusal>(())
    /// ```
    #[doc(alias = "sieddesan_set_hook")]
    pub fn set_hook(&mut self, v: impl Into<Value>) -> Result<(), Refusal> {
        let [tag, low, high] = v.into().words();
        let (w, b) = self.buffers();
        answered(engine::set_hook(w, b, tag, low, high))
    }
}

/// Reads of the main thread.
impl<W: AsRef<[u32]>, B: AsRef<[u8]>> Heap<W, B> {
    /// A question by its place in the header's list.
    fn main(&self, field: u32, index: u32) -> Result<Read, Refusal> {
        self.ask(|w, b, out| engine::read_main(w, b, field, index, out))
    }

    /// The top of the stack: how many values are on it.
    ///
    /// # Errors
    /// [`BadBuffers`](Refusal::BadBuffers) and [`Damaged`](Refusal::Damaged), as every call.
    ///
    /// ```
    /// # use collector::{Heap, Sizes};
    /// # let mut heap = Heap::new(Sizes::default())?;
    /// heap.push(true)?;
    /// assert_eq!(heap.top()?, 1);
    /// # Ok::<(), collector::Refusal>(())
    /// ```
    #[doc(alias = "sieddesan_read_main")]
    pub fn top(&self) -> Result<u32, Refusal> {
        Ok(self.main(0, 0)?.small())
    }

    /// How many upvalues are on the open list.
    ///
    /// # Errors
    /// [`BadBuffers`](Refusal::BadBuffers) and [`Damaged`](Refusal::Damaged), as every call.
    ///
    /// ```
    /// # use collector::{Heap, Sizes};
    /// # let mut heap = Heap::new(Sizes::default())?;
    /// let upvalue = heap.make_open_upvalue()?;
    /// heap.open_push(upvalue)?;
    /// assert_eq!(heap.open_count()?, 1);
    /// # Ok::<(), collector::Refusal>(())
    /// ```
    #[doc(alias = "sieddesan_read_main")]
    pub fn open_count(&self) -> Result<u32, Refusal> {
        Ok(self.main(1, 0)?.small())
    }

    /// The current frame.
    ///
    /// # Errors
    /// [`BadBuffers`](Refusal::BadBuffers) and [`Damaged`](Refusal::Damaged), as every call.
    ///
    /// ```
    /// # use collector::{Heap, Sizes};
    /// assert_eq!(Heap::new(Sizes::default())?.current_frame()?, 0);
    /// # Ok::<(), collector::Refusal>(())
    /// ```
    #[doc(alias = "sieddesan_read_main")]
    pub fn current_frame(&self) -> Result<u32, Refusal> {
        Ok(self.main(2, 0)?.small())
    }

    /// The error value.
    ///
    /// # Errors
    /// [`BadBuffers`](Refusal::BadBuffers) and [`Damaged`](Refusal::Damaged), as every call.
    ///
    /// ```
    /// # use collector::{Heap, Sizes};
    /// assert!(Heap::new(Sizes::default())?.error()?.is_nil());
    /// # Ok::<(), collector::Refusal>(())
    /// ```
    #[doc(alias = "sieddesan_read_main")]
    pub fn error(&self) -> Result<Value, Refusal> {
        Ok(self.main(3, 0)?.value())
    }

    /// The hook function.
    ///
    /// # Errors
    /// [`BadBuffers`](Refusal::BadBuffers) and [`Damaged`](Refusal::Damaged), as every call.
    ///
    /// ```
    /// # use collector::{Heap, Sizes};
    /// assert!(Heap::new(Sizes::default())?.hook()?.is_nil());
    /// # Ok::<(), collector::Refusal>(())
    /// ```
    #[doc(alias = "sieddesan_read_main")]
    pub fn hook(&self) -> Result<Value, Refusal> {
        Ok(self.main(4, 0)?.value())
    }

    /// The value at place `i` of the stack, also at or above the top.
    ///
    /// # Errors
    /// [`OutOfRange`](Refusal::OutOfRange) past the stack's size.
    ///
    /// ```
    /// # use collector::{Heap, Refusal, Sizes, Value};
    /// # let mut heap = Heap::new(Sizes::default())?;
    /// heap.push(false)?;
    /// assert_eq!(heap.stack_get(0)?, Value::Bool(false));
    /// assert_eq!(heap.stack_get(64), Err(Refusal::OutOfRange));
    /// # Ok::<(), Refusal>(())
    /// ```
    #[doc(alias = "sieddesan_read_main")]
    pub fn stack_get(&self, i: u32) -> Result<Value, Refusal> {
        Ok(self.main(5, i)?.value())
    }

    /// Upvalue `i` of the open list.
    ///
    /// # Errors
    /// [`OutOfRange`](Refusal::OutOfRange) from the end of the list on.
    ///
    /// ```
    /// # use collector::{Heap, Refusal, Sizes};
    /// # let mut heap = Heap::new(Sizes::default())?;
    /// assert_eq!(heap.open_get(0), Err(Refusal::OutOfRange));
    /// # Ok::<(), Refusal>(())
    /// ```
    #[doc(alias = "sieddesan_read_main")]
    pub fn open_get(&self, i: u32) -> Result<UpvalueRef, Refusal> {
        Ok(self.main(6, i)?.upvalue())
    }

    /// At which place of the stack frame `i` has its function.
    ///
    /// # Errors
    /// [`OutOfRange`](Refusal::OutOfRange) past the frames.
    ///
    /// ```
    /// # use collector::{Heap, Sizes};
    /// assert_eq!(Heap::new(Sizes::default())?.frame(0)?, 0);
    /// # Ok::<(), collector::Refusal>(())
    /// ```
    #[doc(alias = "sieddesan_read_main")]
    pub fn frame(&self, i: u32) -> Result<u32, Refusal> {
        Ok(self.main(7, i)?.small())
    }
}
