//! The guard of a finalizer that is out.

use crate::{Heap, Refusal, Step, UserdataRef, Value, engine};
use alloc::vec::Vec;
use core::fmt;
use core::ops::{Deref, DerefMut};

/// A userdata that was handed out for its finalizer, until the host has run it.
///
/// The host runs the method on the userdata and then calls [`finish`](Self::finish): what was
/// interrupted goes on. A guard that is dropped without it, by `?`, by a panic or by oversight,
/// counts as a finalizer that failed: the call that it interrupted is over, the phase stays
/// [`Finalize`](crate::Phase::Finalize), and the next step goes on with the next userdata of the
/// queue. No userdata is handed out twice.
///
/// The guard borrows the heap and stands for it: all calls can be made through it. Steps answer
/// [`Busy`](crate::Outcome::Busy) meanwhile.
///
/// ```
/// use collector::{Heap, Outcome, Refusal, Sizes, Step, UserdataRef};
///
/// fn release(_heap: &mut Heap, _lease: UserdataRef) -> Result<(), Refusal> {
///     Ok(()) // what the host does for a lease that is gone
/// }
///
/// let mut heap = Heap::new(Sizes::default())?;
/// let metatable = heap.make_table(0, 1)?;
/// let gc = heap.gc_name()?.expect("every heap is made with it");
/// heap.table_set_node(metatable, 0, gc, true)?;
/// let lease = heap.make_userdata()?;
/// heap.userdata_set_metatable(lease, metatable)?;
///
/// if let Step::Finalizer(mut out) = heap.collect()? {
///     let userdata = out.userdata();
///     assert_eq!(userdata, lease);
///     release(&mut out, userdata)?; // on a refusal the guard is dropped: the finalizer failed
///     assert_eq!(out.finish()?.outcome(), Some(Outcome::Ended));
/// }
/// # Ok::<(), Refusal>(())
/// ```
#[must_use = "a finalizer that is dropped without `finish` has failed"]
pub struct Finalizer<'h, W = Vec<u32>, B = Vec<u8>>
where
    W: AsMut<[u32]>,
    B: AsMut<[u8]>,
{
    /// None only while it is finished, which takes the guard.
    heap: Option<&'h mut Heap<W, B>>,
    userdata: UserdataRef,
    method: Value,
}

impl<'h, W: AsMut<[u32]>, B: AsMut<[u8]>> Finalizer<'h, W, B> {
    pub(crate) fn new(heap: &'h mut Heap<W, B>, userdata: UserdataRef, method: Value) -> Self {
        let heap = Some(heap);
        Self {
            heap,
            userdata,
            method,
        }
    }

    /// The userdata that is handed out. It is alive, and stays so for this cycle.
    ///
    /// ```
    /// # use collector::{Heap, Sizes, Step};
    /// # let mut heap = Heap::new(Sizes::default())?;
    /// # let metatable = heap.make_table(0, 1)?;
    /// # let gc = heap.gc_name()?;
    /// # heap.table_set_node(metatable, 0, gc, true)?;
    /// # let lease = heap.make_userdata()?;
    /// # heap.userdata_set_metatable(lease, metatable)?;
    /// // a lease with a metatable that has `__gc`, and that nothing holds
    /// if let Step::Finalizer(out) = heap.collect()? {
    ///     assert_eq!(out.userdata(), lease);
    ///     assert!(out.userdata_is_finalized(lease)?);
    ///     let _ = out.finish()?;
    /// }
    /// # Ok::<(), collector::Refusal>(())
    /// ```
    #[must_use]
    pub const fn userdata(&self) -> UserdataRef {
        self.userdata
    }

    /// The `__gc` field of its metatable, as it was when the userdata was handed out. It is never
    /// nil then; a guard from [`Heap::reclaim_finalizer`] has nil, since the heap does not keep the
    /// method.
    ///
    /// ```
    /// # use collector::{Heap, Sizes, Step, Value};
    /// # let mut heap = Heap::new(Sizes::default())?;
    /// # let metatable = heap.make_table(0, 1)?;
    /// # let gc = heap.gc_name()?;
    /// let release = heap.make_rust_closure(None, &[])?;
    /// heap.table_set_node(metatable, 0, gc, release)?;
    /// # let lease = heap.make_userdata()?;
    /// # heap.userdata_set_metatable(lease, metatable)?;
    /// if let Step::Finalizer(out) = heap.collect()? {
    ///     assert_eq!(out.method(), Value::Function(release));
    ///     let _ = out.finish()?;
    /// }
    /// # Ok::<(), collector::Refusal>(())
    /// ```
    #[must_use]
    pub const fn method(&self) -> Value {
        self.method
    }

    /// The finalizer was run with success, and what it interrupted goes on: a step with the budget
    /// that was left, a check or a full collection. The answer is theirs, and may hand the next
    /// finalizer out.
    ///
    /// # Errors
    /// [`OverLimit`](Refusal::OverLimit) if a check was interrupted and ends so.
    ///
    /// ```
    /// # use collector::{Heap, Outcome, Sizes, Step};
    /// # let mut heap = Heap::new(Sizes::default())?;
    /// # let metatable = heap.make_table(0, 1)?;
    /// # let gc = heap.gc_name()?;
    /// # heap.table_set_node(metatable, 0, gc, true)?;
    /// # let lease = heap.make_userdata()?;
    /// # heap.userdata_set_metatable(lease, metatable)?;
    /// if let Step::Finalizer(out) = heap.collect()? {
    ///     assert_eq!(out.finish()?.outcome(), Some(Outcome::Ended));
    /// }
    /// # Ok::<(), collector::Refusal>(())
    /// ```
    #[doc(alias = "sieddesan_finish")]
    pub fn finish(mut self) -> Result<Step<'h, W, B>, Refusal> {
        let heap = self.heap.take().unwrap_or_else(|| taken());
        let words = heap.finished(true)?;
        Ok(Step::of(heap, words))
    }

    /// The finalizer failed, and the call that it interrupted is over. To drop the guard does the
    /// same, and tells no refusal.
    ///
    /// # Errors
    /// [`BadBuffers`](Refusal::BadBuffers) and [`Damaged`](Refusal::Damaged), as every call.
    ///
    /// ```
    /// # use collector::{Heap, Phase, Sizes, Step};
    /// # let mut heap = Heap::new(Sizes::default())?;
    /// # let metatable = heap.make_table(0, 1)?;
    /// # let gc = heap.gc_name()?;
    /// # heap.table_set_node(metatable, 0, gc, true)?;
    /// # let lease = heap.make_userdata()?;
    /// # heap.userdata_set_metatable(lease, metatable)?;
    /// if let Step::Finalizer(out) = heap.collect()? {
    ///     out.fail()?;
    /// }
    /// assert_eq!(heap.phase()?, Phase::Finalize);
    /// # Ok::<(), collector::Refusal>(())
    /// ```
    #[doc(alias = "sieddesan_finish")]
    pub fn fail(mut self) -> Result<(), Refusal> {
        let heap = self.heap.take().unwrap_or_else(|| taken());
        heap.finished(false).map(|_| ())
    }
}

/// `finish` and `fail` take the guard with them, so nobody has one whose heap is taken.
#[cold]
fn taken() -> ! {
    unreachable!("a guard has its heap until it is finished")
}

impl<W: AsMut<[u32]>, B: AsMut<[u8]>> Drop for Finalizer<'_, W, B> {
    fn drop(&mut self) {
        if let Some(heap) = self.heap.take() {
            // Refused only if the heap was taken from under the guard, by swapping it or ending the
            // finalizer through `reclaim_finalizer`; then there is nothing left to end.
            let _ = heap.finished(false);
        }
    }
}

impl<W: AsMut<[u32]>, B: AsMut<[u8]>> Deref for Finalizer<'_, W, B> {
    type Target = Heap<W, B>;

    fn deref(&self) -> &Self::Target {
        self.heap.as_deref().unwrap_or_else(|| taken())
    }
}

impl<W: AsMut<[u32]>, B: AsMut<[u8]>> DerefMut for Finalizer<'_, W, B> {
    fn deref_mut(&mut self) -> &mut Self::Target {
        self.heap.as_deref_mut().unwrap_or_else(|| taken())
    }
}

impl<W: AsMut<[u32]>, B: AsMut<[u8]>> fmt::Debug for Finalizer<'_, W, B> {
    fn fmt(&self, f: &mut fmt::Formatter<'_>) -> fmt::Result {
        f.debug_struct("Finalizer")
            .field("userdata", &self.userdata)
            .field("method", &self.method)
            .finish_non_exhaustive()
    }
}

impl<W: AsRef<[u32]>, B: AsRef<[u8]>> Heap<W, B> {
    /// The userdata whose finalizer is out, if one is.
    ///
    /// # Errors
    /// [`BadBuffers`](Refusal::BadBuffers) and [`Damaged`](Refusal::Damaged), as every call.
    ///
    /// ```
    /// use collector::{Heap, Sizes};
    ///
    /// assert_eq!(Heap::new(Sizes::default())?.finalizer_out()?, None);
    /// # Ok::<(), collector::Refusal>(())
    /// ```
    #[doc(alias = "sieddesan_read_out")]
    pub fn finalizer_out(&self) -> Result<Option<UserdataRef>, Refusal> {
        Ok(self.ask(engine::read_out)?.userdata())
    }
}

impl<W, B> Heap<W, B>
where
    W: AsRef<[u32]> + AsMut<[u32]>,
    B: AsRef<[u8]> + AsMut<[u8]>,
{
    /// A guard for the finalizer that is out, if one is. It is for heaps whose guard was lost:
    /// buffers that were stored while a finalizer was out, or a guard that went to `mem::forget`.
    /// Else steps would answer [`Busy`](crate::Outcome::Busy) for ever. After `None` none is out:
    /// one that names no userdata, as only damaged words have it, has failed.
    ///
    /// # Errors
    /// [`BadBuffers`](Refusal::BadBuffers) and [`Damaged`](Refusal::Damaged), as every call.
    ///
    /// ```
    /// # use collector::{Heap, Outcome, Sizes};
    /// # let mut heap = Heap::new(Sizes::default())?;
    /// # let metatable = heap.make_table(0, 1)?;
    /// # let gc = heap.gc_name()?;
    /// # heap.table_set_node(metatable, 0, gc, true)?;
    /// # let lease = heap.make_userdata()?;
    /// # heap.userdata_set_metatable(lease, metatable)?;
    /// std::mem::forget(heap.collect()?);
    /// assert_eq!(heap.collect()?.outcome(), Some(Outcome::Busy));
    /// if let Some(out) = heap.reclaim_finalizer()? {
    ///     assert_eq!(out.userdata(), lease);
    ///     assert_eq!(out.finish()?.outcome(), Some(Outcome::Ended));
    /// }
    /// # Ok::<(), collector::Refusal>(())
    /// ```
    #[doc(alias = "sieddesan_read_out")]
    pub fn reclaim_finalizer(&mut self) -> Result<Option<Finalizer<'_, W, B>>, Refusal> {
        let out = self.finalizer_out()?;
        if self.interrupted()?.is_none() {
            return Ok(None);
        }
        let Some(userdata) = out else {
            self.finished(false)?;
            return Ok(None);
        };
        Ok(Some(Finalizer::new(self, userdata, Value::Nil)))
    }
}
