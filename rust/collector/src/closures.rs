//! Closures. Once made they are never changed.

use crate::answer::Read;
use crate::{FunctionRef, Heap, Proto, Refusal, TableRef, UpvalueRef, Value, engine};

/// Reads of closures.
impl<W: AsRef<[u32]>, B: AsRef<[u8]>> Heap<W, B> {
    /// A question by its place in the header's list.
    fn closure(&self, f: FunctionRef, field: u32, at: u32) -> Result<Read, Refusal> {
        let (index, generation) = (f.index(), f.generation());
        self.ask(|w, b, out| engine::read_closure(w, b, index, generation, field, at, out))
    }

    /// Whether it is a Rust closure; else it is one of Lua.
    ///
    /// # Errors
    /// [`Stale`](Refusal::Stale).
    ///
    /// ```
    /// # use collector::{Heap, Sizes};
    /// # let mut heap = Heap::new(Sizes::default())?;
    /// let function = heap.make_rust_closure(None, &[])?;
    /// assert!(heap.closure_is_rust(function)?);
    /// # Ok::<(), collector::Refusal>(())
    /// ```
    #[doc(alias = "sieddesan_read_closure")]
    pub fn closure_is_rust(&self, f: FunctionRef) -> Result<bool, Refusal> {
        Ok(self.closure(f, 0, 0)?.flag())
    }

    /// Its environment. Only a Rust closure may have none.
    ///
    /// # Errors
    /// [`Stale`](Refusal::Stale).
    ///
    /// ```
    /// # use collector::{Heap, Sizes};
    /// # let mut heap = Heap::new(Sizes::default())?;
    /// let env = heap.make_table(0, 4)?;
    /// let function = heap.make_rust_closure(env, &[])?;
    /// assert_eq!(heap.closure_env(function)?, Some(env));
    /// # Ok::<(), collector::Refusal>(())
    /// ```
    #[doc(alias = "sieddesan_read_closure")]
    pub fn closure_env(&self, f: FunctionRef) -> Result<Option<TableRef>, Refusal> {
        Ok(self.closure(f, 1, 0)?.table())
    }

    /// The prototype of a Lua closure. What a Rust closure answers has no meaning.
    ///
    /// # Errors
    /// [`Stale`](Refusal::Stale).
    ///
    /// ```
    /// # use collector::{Heap, Sizes};
    /// # let mut heap = Heap::new(Sizes::default())?;
    /// let (proto, env) = (heap.make_proto(&[], &[])?, heap.make_table(0, 0)?);
    /// let function = heap.make_lua_closure(proto, env, &[])?;
    /// assert_eq!(heap.closure_proto(function)?, proto);
    /// # Ok::<(), collector::Refusal>(())
    /// ```
    #[doc(alias = "sieddesan_read_closure")]
    pub fn closure_proto(&self, f: FunctionRef) -> Result<Proto, Refusal> {
        Ok(Proto::new(self.closure(f, 2, 0)?.small()))
    }

    /// How many upvalues a Lua closure has, or values a Rust closure.
    ///
    /// # Errors
    /// [`Stale`](Refusal::Stale).
    ///
    /// ```
    /// # use collector::{Heap, Sizes, Value};
    /// # let mut heap = Heap::new(Sizes::default())?;
    /// let function = heap.make_rust_closure(None, &[Value::Nil, Value::Bool(true)])?;
    /// assert_eq!(heap.closure_len(function)?, 2);
    /// # Ok::<(), collector::Refusal>(())
    /// ```
    #[doc(alias = "sieddesan_read_closure")]
    pub fn closure_len(&self, f: FunctionRef) -> Result<u32, Refusal> {
        Ok(self.closure(f, 3, 0)?.small())
    }

    /// Upvalue `i` of a Lua closure.
    ///
    /// # Errors
    /// [`Stale`](Refusal::Stale), then [`OutOfRange`](Refusal::OutOfRange) for the place, or for a
    /// Rust closure.
    ///
    /// ```
    /// # use collector::{Heap, Refusal, Sizes, Value};
    /// # let mut heap = Heap::new(Sizes::default())?;
    /// let function = heap.make_rust_closure(None, &[Value::Nil])?;
    /// assert_eq!(heap.closure_upvalue(function, 0), Err(Refusal::OutOfRange));
    /// # Ok::<(), Refusal>(())
    /// ```
    #[doc(alias = "sieddesan_read_closure")]
    pub fn closure_upvalue(&self, f: FunctionRef, i: u32) -> Result<UpvalueRef, Refusal> {
        Ok(self.closure(f, 4, i)?.upvalue())
    }

    /// Value `i` of a Rust closure.
    ///
    /// # Errors
    /// [`Stale`](Refusal::Stale), then [`OutOfRange`](Refusal::OutOfRange) for the place, or for a
    /// Lua closure.
    ///
    /// ```
    /// # use collector::{Heap, Sizes, Value};
    /// # let mut heap = Heap::new(Sizes::default())?;
    /// let function = heap.make_rust_closure(None, &[Value::Light(9)])?;
    /// assert_eq!(heap.closure_value(function, 0)?.as_light(), Some(9));
    /// # Ok::<(), collector::Refusal>(())
    /// ```
    #[doc(alias = "sieddesan_read_closure")]
    pub fn closure_value(&self, f: FunctionRef, i: u32) -> Result<Value, Refusal> {
        Ok(self.closure(f, 5, i)?.value())
    }
}
