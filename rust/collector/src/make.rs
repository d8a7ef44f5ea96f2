//! Making objects.

use crate::answer::{gives, maybe};
use crate::{
    FunctionRef, Heap, Proto, Refusal, StringRef, TableRef, ThreadRef, UpvalueRef, UserdataRef,
    Value, engine,
};

/// The words of a list, as many as fit. What is lent to the engine has room for one item more than
/// a list may have, so a longer list is refused as it should be.
struct Gathered<const N: usize> {
    words: [u32; N],
    count: usize,
}

impl<const N: usize> Gathered<N> {
    fn of(list: impl Iterator<Item = u32>) -> Self {
        let mut words = [0; N];
        let count = words.iter_mut().zip(list).map(|(w, n)| *w = n).count();
        Self { words, count }
    }

    fn words(&self) -> &[u32] {
        &self.words[..self.count]
    }
}

/// Constants, or the values of a Rust closure, of which there are at most 16.
fn values(list: &[Value]) -> Gathered<{ 3 * 17 }> {
    Gathered::of(list.iter().flat_map(|v| v.words()))
}

/// Upvalues of a Lua closure, of which there are at most 16.
fn upvalues(list: &[UpvalueRef]) -> Gathered<{ 2 * 17 }> {
    Gathered::of(list.iter().flat_map(|u| [u.index(), u.generation()]))
}

/// Nested prototypes, of which there are at most 8.
fn numbers(list: &[Proto]) -> Gathered<9> {
    Gathered::of(list.iter().map(|p| p.number()))
}

/// Calls that make an object. A new object is held by nothing: the next collection frees it unless
/// it is stored where a root leads to it.
impl<W: AsMut<[u32]>, B: AsMut<[u8]>> Heap<W, B> {
    /// A string of these bytes, at most 64. One that is already present answers its handle.
    ///
    /// # Errors
    /// [`OutOfRange`](Refusal::OutOfRange) for more bytes; if it is new,
    /// [`TotalTooLarge`](Refusal::TotalTooLarge) and [`Full`](Refusal::Full).
    ///
    /// ```
    /// use collector::{Heap, Refusal, Sizes};
    ///
    /// let mut heap = Heap::new(Sizes::default())?;
    /// let name = heap.make_string(b"stripe")?;
    /// assert_eq!(heap.make_string(b"stripe")?, name);
    /// assert_eq!(heap.make_string(&[0; 65]), Err(Refusal::OutOfRange));
    /// # Ok::<(), Refusal>(())
    /// ```
    #[doc(alias = "sieddesan_make_string")]
    pub fn make_string(&mut self, bytes: &[u8]) -> Result<StringRef, Refusal> {
        let (w, b) = self.buffers();
        gives(|out| engine::make_string(w, b, bytes, out)).map(StringRef::of)
    }

    /// A table with so many array places, at most 64, and nodes: 0, 1, 2, 4, 8, 16, 32 or 64. They
    /// stay as many.
    ///
    /// # Errors
    /// [`OutOfRange`](Refusal::OutOfRange) for another size;
    /// [`TotalTooLarge`](Refusal::TotalTooLarge) and [`Full`](Refusal::Full).
    ///
    /// ```
    /// use collector::{Heap, Refusal, Sizes};
    ///
    /// let mut heap = Heap::new(Sizes::default())?;
    /// let table = heap.make_table(3, 8)?;
    /// assert_eq!(heap.table_node_count(table)?, 8);
    /// assert_eq!(heap.make_table(0, 3), Err(Refusal::OutOfRange));
    /// # Ok::<(), Refusal>(())
    /// ```
    #[doc(alias = "sieddesan_make_table")]
    pub fn make_table(&mut self, array: u32, nodes: u32) -> Result<TableRef, Refusal> {
        let (w, b) = self.buffers();
        gives(|out| engine::make_table(w, b, array, nodes, out)).map(TableRef::of)
    }

    /// A prototype with at most 16 constants and at most 8 nested prototypes, each of which has no
    /// parent yet. It is never changed and never freed.
    ///
    /// # Errors
    /// [`OutOfRange`](Refusal::OutOfRange) for longer lists or a nested prototype that is not made,
    /// has a parent or is named twice; [`Stale`](Refusal::Stale) for a constant;
    /// [`Full`](Refusal::Full).
    ///
    /// ```
    /// use collector::{Heap, Refusal, Sizes, Value};
    ///
    /// let mut heap = Heap::new(Sizes::default())?;
    /// let inner = heap.make_proto(&[Value::Number(1.0)], &[])?;
    /// let outer = heap.make_proto(&[], &[inner])?;
    /// assert_eq!(heap.proto_parent(inner)?, Some(outer));
    /// assert_eq!(heap.make_proto(&[], &[inner]), Err(Refusal::OutOfRange));
    /// # Ok::<(), Refusal>(())
    /// ```
    #[doc(alias = "sieddesan_make_proto")]
    pub fn make_proto(&mut self, constants: &[Value], nested: &[Proto]) -> Result<Proto, Refusal> {
        let (constants, nested) = (values(constants), numbers(nested));
        let (w, b) = self.buffers();
        let [number, _] =
            gives(|out| engine::make_proto(w, b, constants.words(), nested.words(), out))?;
        Ok(Proto::new(number))
    }

    /// A Lua closure of a prototype, with its environment and at most 16 upvalues.
    ///
    /// # Errors
    /// [`OutOfRange`](Refusal::OutOfRange) for a longer list or a prototype that is not made;
    /// [`Stale`](Refusal::Stale), also for a constant of the prototype or of a nested one;
    /// [`TotalTooLarge`](Refusal::TotalTooLarge) and [`Full`](Refusal::Full).
    ///
    /// ```
    /// use collector::{Heap, Sizes};
    ///
    /// let mut heap = Heap::new(Sizes::default())?;
    /// let proto = heap.make_proto(&[], &[])?;
    /// let env = heap.make_table(0, 4)?;
    /// let upvalue = heap.make_closed_upvalue(7)?;
    /// let function = heap.make_lua_closure(proto, env, &[upvalue])?;
    /// assert_eq!(heap.closure_upvalue(function, 0)?, upvalue);
    /// # Ok::<(), collector::Refusal>(())
    /// ```
    #[doc(alias = "sieddesan_make_lua_closure")]
    pub fn make_lua_closure(
        &mut self,
        proto: Proto,
        env: TableRef,
        held: &[UpvalueRef],
    ) -> Result<FunctionRef, Refusal> {
        let (held, [index, of]) = (upvalues(held), [env.index(), env.generation()]);
        let (w, b) = self.buffers();
        gives(|out| engine::make_lua_closure(w, b, proto.number(), index, of, held.words(), out))
            .map(FunctionRef::of)
    }

    /// A Rust closure with an environment that may be missing and at most 16 values.
    ///
    /// # Errors
    /// [`OutOfRange`](Refusal::OutOfRange) for a longer list; [`Stale`](Refusal::Stale);
    /// [`TotalTooLarge`](Refusal::TotalTooLarge) and [`Full`](Refusal::Full).
    ///
    /// ```
    /// use collector::{Heap, Sizes, Value};
    ///
    /// let mut heap = Heap::new(Sizes::default())?;
    /// let release = heap.make_rust_closure(None, &[Value::Light(0xfeed)])?;
    /// assert!(heap.closure_is_rust(release)?);
    /// assert_eq!(heap.closure_value(release, 0)?, Value::Light(0xfeed));
    /// # Ok::<(), collector::Refusal>(())
    /// ```
    #[doc(alias = "sieddesan_make_rust_closure")]
    pub fn make_rust_closure(
        &mut self,
        env: impl Into<Option<TableRef>>,
        held: &[Value],
    ) -> Result<FunctionRef, Refusal> {
        let (held, [some, index, of]) = (values(held), maybe(env.into()));
        let (w, b) = self.buffers();
        gives(|out| engine::make_rust_closure(w, b, some, index, of, held.words(), out))
            .map(FunctionRef::of)
    }

    /// An open upvalue. Which place of a stack it stands for, the host knows.
    ///
    /// # Errors
    /// [`TotalTooLarge`](Refusal::TotalTooLarge) and [`Full`](Refusal::Full).
    ///
    /// ```
    /// use collector::{Heap, Sizes};
    ///
    /// let mut heap = Heap::new(Sizes::default())?;
    /// let upvalue = heap.make_open_upvalue()?;
    /// assert!(!heap.upvalue_is_closed(upvalue)?);
    /// # Ok::<(), collector::Refusal>(())
    /// ```
    #[doc(alias = "sieddesan_make_open_upvalue")]
    pub fn make_open_upvalue(&mut self) -> Result<UpvalueRef, Refusal> {
        let (w, b) = self.buffers();
        gives(|out| engine::make_open_upvalue(w, b, out)).map(UpvalueRef::of)
    }

    /// An upvalue closed over a value.
    ///
    /// # Errors
    /// [`Stale`](Refusal::Stale), [`TotalTooLarge`](Refusal::TotalTooLarge) and
    /// [`Full`](Refusal::Full).
    ///
    /// ```
    /// use collector::{Heap, Sizes, Value};
    ///
    /// let mut heap = Heap::new(Sizes::default())?;
    /// let upvalue = heap.make_closed_upvalue(true)?;
    /// assert_eq!(heap.upvalue_value(upvalue)?, Value::Bool(true));
    /// # Ok::<(), collector::Refusal>(())
    /// ```
    #[doc(alias = "sieddesan_make_closed_upvalue")]
    pub fn make_closed_upvalue(&mut self, v: impl Into<Value>) -> Result<UpvalueRef, Refusal> {
        let [tag, low, high] = v.into().words();
        let (w, b) = self.buffers();
        gives(|out| engine::make_closed_upvalue(w, b, tag, low, high, out)).map(UpvalueRef::of)
    }

    /// A userdata, with no metatable and no environment yet. What it stands for, the host knows.
    ///
    /// # Errors
    /// [`TotalTooLarge`](Refusal::TotalTooLarge) and [`Full`](Refusal::Full).
    ///
    /// ```
    /// use collector::{Heap, Sizes};
    ///
    /// let mut heap = Heap::new(Sizes::default())?;
    /// let lease = heap.make_userdata()?;
    /// assert!(heap.is_live(lease)?);
    /// # Ok::<(), collector::Refusal>(())
    /// ```
    #[doc(alias = "sieddesan_make_userdata")]
    pub fn make_userdata(&mut self) -> Result<UserdataRef, Refusal> {
        let (w, b) = self.buffers();
        gives(|out| engine::make_userdata(w, b, out)).map(UserdataRef::of)
    }

    /// A thread with its global table and a stack of so many places, at most 64.
    ///
    /// # Errors
    /// [`OutOfRange`](Refusal::OutOfRange) for a larger stack; [`Stale`](Refusal::Stale);
    /// [`TotalTooLarge`](Refusal::TotalTooLarge) and [`Full`](Refusal::Full).
    ///
    /// ```
    /// use collector::{Heap, Sizes};
    ///
    /// let mut heap = Heap::new(Sizes::default())?;
    /// let global = heap.make_table(0, 8)?;
    /// let thread = heap.make_thread(global, 16)?;
    /// assert_eq!(heap.thread_stack_len(thread)?, 16);
    /// # Ok::<(), collector::Refusal>(())
    /// ```
    #[doc(alias = "sieddesan_make_thread")]
    pub fn make_thread(&mut self, global: TableRef, stack: u32) -> Result<ThreadRef, Refusal> {
        let (w, b) = self.buffers();
        let (index, of) = (global.index(), global.generation());
        gives(|out| engine::make_thread(w, b, index, of, stack, out)).map(ThreadRef::of)
    }
}
