//! Prototypes, by their numbers. Once made they are never changed and never freed.

use crate::answer::Read;
use crate::{Heap, Proto, Refusal, Value, engine};

/// Reads of prototypes.
impl<W: AsRef<[u32]>, B: AsRef<[u8]>> Heap<W, B> {
    /// A question by its place in the header's list.
    fn proto(&self, p: Proto, field: u32, at: u32) -> Result<Read, Refusal> {
        self.ask(|w, b, out| engine::read_proto(w, b, p.number(), field, at, out))
    }

    /// How many constants a prototype has.
    ///
    /// # Errors
    /// [`OutOfRange`](Refusal::OutOfRange) if it is not made.
    ///
    /// ```
    /// # use collector::{Heap, Proto, Refusal, Sizes, Value};
    /// # let mut heap = Heap::new(Sizes::default())?;
    /// let proto = heap.make_proto(&[Value::Number(2.0)], &[])?;
    /// assert_eq!(heap.proto_constant_count(proto)?, 1);
    /// assert_eq!(heap.proto_constant_count(Proto::new(9)), Err(Refusal::OutOfRange));
    /// # Ok::<(), Refusal>(())
    /// ```
    #[doc(alias = "sieddesan_read_proto")]
    pub fn proto_constant_count(&self, p: Proto) -> Result<u32, Refusal> {
        Ok(self.proto(p, 0, 0)?.small())
    }

    /// How many prototypes are nested in a prototype.
    ///
    /// # Errors
    /// [`OutOfRange`](Refusal::OutOfRange) if it is not made.
    ///
    /// ```
    /// # use collector::{Heap, Sizes};
    /// # let mut heap = Heap::new(Sizes::default())?;
    /// let inner = heap.make_proto(&[], &[])?;
    /// let outer = heap.make_proto(&[], &[inner])?;
    /// assert_eq!(heap.proto_nested_count(outer)?, 1);
    /// # Ok::<(), collector::Refusal>(())
    /// ```
    #[doc(alias = "sieddesan_read_proto")]
    pub fn proto_nested_count(&self, p: Proto) -> Result<u32, Refusal> {
        Ok(self.proto(p, 1, 0)?.small())
    }

    /// The prototype that a prototype is nested in, if it is.
    ///
    /// # Errors
    /// [`OutOfRange`](Refusal::OutOfRange) if it is not made.
    ///
    /// ```
    /// # use collector::{Heap, Sizes};
    /// # let mut heap = Heap::new(Sizes::default())?;
    /// let proto = heap.make_proto(&[], &[])?;
    /// assert_eq!(heap.proto_parent(proto)?, None);
    /// # Ok::<(), collector::Refusal>(())
    /// ```
    #[doc(alias = "sieddesan_read_proto")]
    pub fn proto_parent(&self, p: Proto) -> Result<Option<Proto>, Refusal> {
        Ok(self.proto(p, 2, 0)?.place().map(Proto::new))
    }

    /// Constant `i` of a prototype.
    ///
    /// # Errors
    /// [`OutOfRange`](Refusal::OutOfRange) for the place, or if the prototype is not made.
    ///
    /// ```
    /// # use collector::{Heap, Sizes, Value};
    /// # let mut heap = Heap::new(Sizes::default())?;
    /// let proto = heap.make_proto(&[Value::Bool(true)], &[])?;
    /// assert_eq!(heap.proto_constant(proto, 0)?, Value::Bool(true));
    /// # Ok::<(), collector::Refusal>(())
    /// ```
    #[doc(alias = "sieddesan_read_proto")]
    pub fn proto_constant(&self, p: Proto, i: u32) -> Result<Value, Refusal> {
        Ok(self.proto(p, 3, i)?.value())
    }

    /// Nested prototype `i` of a prototype.
    ///
    /// # Errors
    /// [`OutOfRange`](Refusal::OutOfRange) for the place, or if the prototype is not made.
    ///
    /// ```
    /// # use collector::{Heap, Sizes};
    /// # let mut heap = Heap::new(Sizes::default())?;
    /// let inner = heap.make_proto(&[], &[])?;
    /// let outer = heap.make_proto(&[], &[inner])?;
    /// assert_eq!(heap.proto_nested(outer, 0)?, inner);
    /// # Ok::<(), collector::Refusal>(())
    /// ```
    #[doc(alias = "sieddesan_read_proto")]
    pub fn proto_nested(&self, p: Proto, i: u32) -> Result<Proto, Refusal> {
        Ok(Proto::new(self.proto(p, 4, i)?.small()))
    }
}
