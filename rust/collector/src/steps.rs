//! The collector at work: steps, checks and full collections.

use crate::answer::{gives, odd};
use crate::{Finalizer, Heap, Refusal, UserdataRef, Value, engine};
use alloc::vec::Vec;

/// How far a step has come.
///
/// ```
/// use collector::{Heap, Outcome, Sizes};
///
/// let mut heap = Heap::new(Sizes::default())?;
/// assert_eq!(heap.step(100)?.outcome(), Some(Outcome::Unfinished));
/// # Ok::<(), collector::Refusal>(())
/// ```
#[derive(Clone, Copy, Debug, PartialEq, Eq, Hash)]
pub enum Outcome {
    /// A single step was made.
    Stepped {
        /// Its cost, which budgets are counted in.
        cost: u32,
    },
    /// The budget is used up and the cycle goes on.
    Unfinished,
    /// The cycle ended.
    Ended,
    /// A check found the total within its limit.
    Passed,
    /// A finalizer is out, so no step was made.
    Busy,
}

/// What a step answers: how far it has come, or a userdata whose finalizer is to be run first.
///
/// It must be looked at: to drop one that hands a finalizer out is to drop the guard, which counts
/// as a finalizer that failed. [`run_finalizers`](Self::run_finalizers) takes care of it; by hand
/// it is a loop:
///
/// ```
/// use collector::{Heap, Outcome, Refusal, Sizes, Step};
///
/// fn collect(heap: &mut Heap) -> Result<Outcome, Refusal> {
///     let mut step = heap.collect()?;
///     loop {
///         match step {
///             Step::Done(outcome) => return Ok(outcome),
///             Step::Finalizer(out) => {
///                 println!("{} is released", out.userdata());
///                 step = out.finish()?;
///             }
///         }
///     }
/// }
///
/// let mut heap = Heap::new(Sizes::default())?;
/// assert_eq!(collect(&mut heap)?, Outcome::Ended);
/// # Ok::<(), Refusal>(())
/// ```
#[derive(Debug)]
#[must_use = "a step may hand a finalizer out, and one that is dropped has failed"]
pub enum Step<'h, W = Vec<u32>, B = Vec<u8>>
where
    W: AsMut<[u32]>,
    B: AsMut<[u8]>,
{
    /// The step is over.
    Done(Outcome),
    /// A userdata is handed out for its finalizer to be run. The step is interrupted until then.
    Finalizer(Finalizer<'h, W, B>),
}

impl<'h, W: AsMut<[u32]>, B: AsMut<[u8]>> Step<'h, W, B> {
    /// The step that the engine answers in these words.
    pub(crate) fn of(heap: &'h mut Heap<W, B>, words: [u32; 6]) -> Self {
        Self::Done(match words {
            [0, cost, ..] => Outcome::Stepped { cost },
            [1, ..] => Outcome::Unfinished,
            [2, ..] => Outcome::Ended,
            [3, ..] => Outcome::Passed,
            [4, index, generation, tag, low, high] => {
                let userdata = UserdataRef::new(index, generation);
                let method = Value::of([tag, low, high]);
                return Self::Finalizer(Finalizer::new(heap, userdata, method));
            }
            [5, ..] => Outcome::Busy,
            _ => odd(&words),
        })
    }

    /// How far the step has come; none if it hands a finalizer out.
    ///
    /// ```
    /// # use collector::{Heap, Outcome, Sizes};
    /// # let mut heap = Heap::new(Sizes::default())?;
    /// assert_eq!(heap.collect()?.outcome(), Some(Outcome::Ended));
    /// # Ok::<(), collector::Refusal>(())
    /// ```
    #[must_use]
    pub const fn outcome(&self) -> Option<Outcome> {
        match self {
            Self::Done(outcome) => Some(*outcome),
            Self::Finalizer(_) => None,
        }
    }

    /// Runs each finalizer that is handed out, with success, until the step is over.
    ///
    /// # Errors
    /// Those of [`finish`](Finalizer::finish).
    ///
    /// ```
    /// # use collector::{Heap, Outcome, Sizes};
    /// # let mut heap = Heap::new(Sizes::default())?;
    /// # let metatable = heap.make_table(0, 1)?;
    /// # let gc = heap.gc_name()?;
    /// # heap.table_set_node(metatable, 0, gc, true)?;
    /// # let lease = heap.make_userdata()?;
    /// # heap.userdata_set_metatable(lease, metatable)?;
    /// let mut released = Vec::new();
    /// let outcome = heap.collect()?.run_finalizers(|out| released.push(out.userdata()))?;
    /// assert_eq!((outcome, released), (Outcome::Ended, vec![lease]));
    /// # Ok::<(), collector::Refusal>(())
    /// ```
    pub fn run_finalizers(
        self,
        mut run: impl FnMut(&mut Finalizer<'h, W, B>),
    ) -> Result<Outcome, Refusal> {
        self.try_run_finalizers(|out| {
            run(out);
            Ok(())
        })
    }

    /// Runs each finalizer that is handed out, until the step is over or one fails. An error of
    /// `run` is answered, and its finalizer has failed; the others come with the next steps.
    ///
    /// # Errors
    /// Those of `run`, and of [`finish`](Finalizer::finish).
    ///
    /// ```
    /// # use collector::{Heap, Outcome, Refusal, Sizes};
    /// # let mut heap = Heap::new(Sizes::default())?;
    /// # let metatable = heap.make_table(0, 1)?;
    /// # let gc = heap.gc_name()?;
    /// # heap.table_set_node(metatable, 0, gc, true)?;
    /// # let lease = heap.make_userdata()?;
    /// # heap.userdata_set_metatable(lease, metatable)?;
    /// use std::error::Error;
    ///
    /// let step = heap.collect()?;
    /// let failed: Result<Outcome, Box<dyn Error>> =
    ///     step.try_run_finalizers(|out| Err(format!("{} is busy", out.userdata()).into()));
    /// assert_eq!(failed.unwrap_err().to_string(), "userdata 0.0 is busy");
    /// assert_eq!(heap.collect()?.outcome(), Some(Outcome::Ended));
    /// # Ok::<(), Refusal>(())
    /// ```
    pub fn try_run_finalizers<E: From<Refusal>>(
        mut self,
        mut run: impl FnMut(&mut Finalizer<'h, W, B>) -> Result<(), E>,
    ) -> Result<Outcome, E> {
        loop {
            match self {
                Self::Done(outcome) => return Ok(outcome),
                Self::Finalizer(mut out) => {
                    run(&mut out)?;
                    self = out.finish()?;
                }
            }
        }
    }
}

/// Calls that collect. Any of them may hand a finalizer out: see [`Step`] and [`Finalizer`].
///
/// While one is out, steps answer [`Busy`](Outcome::Busy) and change nothing, but for what is said
/// there.
impl<W: AsMut<[u32]>, B: AsMut<[u8]>> Heap<W, B> {
    fn stepped(
        &mut self,
        step: impl FnOnce(&mut [u32], &mut [u8], &mut [u32]) -> u32,
    ) -> Result<Step<'_, W, B>, Refusal> {
        let (w, b) = self.buffers();
        let words = gives(|out| step(w, b, out))?;
        Ok(Step::of(self, words))
    }

    /// One step of the cycle: marking the roots, traversing one object, the atomic phase, a batch
    /// of the sweep or one finalizer. It answers [`Stepped`](Outcome::Stepped) or hands a finalizer
    /// out, and paces nothing.
    ///
    /// # Errors
    /// [`BadBuffers`](Refusal::BadBuffers) and [`Damaged`](Refusal::Damaged), as every call.
    ///
    /// ```
    /// use collector::{Heap, Outcome, Phase, Sizes};
    ///
    /// let mut heap = Heap::new(Sizes::default())?;
    /// assert_eq!(heap.single_step()?.outcome(), Some(Outcome::Stepped { cost: 0 }));
    /// assert_eq!(heap.phase()?, Phase::Propagate);
    /// # Ok::<(), collector::Refusal>(())
    /// ```
    #[doc(alias = "sieddesan_gc_singlestep")]
    pub fn single_step(&mut self) -> Result<Step<'_, W, B>, Refusal> {
        self.stepped(engine::gc_singlestep)
    }

    /// Steps until their costs have used the budget up or the cycle ends. At least one is made; a
    /// budget below 0 acts as 0.
    ///
    /// # Errors
    /// [`BadBuffers`](Refusal::BadBuffers) and [`Damaged`](Refusal::Damaged), as every call.
    ///
    /// ```
    /// use collector::{Heap, Outcome, Sizes};
    ///
    /// let mut heap = Heap::new(Sizes::default())?;
    /// assert_eq!(heap.step(100)?.outcome(), Some(Outcome::Unfinished));
    /// assert_eq!(heap.step(1_000_000)?.outcome(), Some(Outcome::Ended));
    /// # Ok::<(), collector::Refusal>(())
    /// ```
    #[doc(alias = "sieddesan_gc_step")]
    pub fn step(&mut self, budget: i64) -> Result<Step<'_, W, B>, Refusal> {
        self.stepped(|w, b, out| engine::gc_step(w, b, budget, out))
    }

    /// A budgeted step whose budget goes by [`stepmul`](Heap::stepmul); the debt grows first, also
    /// where a finalizer is out.
    ///
    /// # Errors
    /// [`BadBuffers`](Refusal::BadBuffers) and [`Damaged`](Refusal::Damaged), as every call.
    ///
    /// ```
    /// use collector::{Heap, Outcome, Sizes};
    ///
    /// let mut heap = Heap::new(Sizes::default())?;
    /// while heap.auto_step()?.run_finalizers(|_| ())? != Outcome::Ended {}
    /// # Ok::<(), collector::Refusal>(())
    /// ```
    #[doc(alias = "sieddesan_gc_step_auto")]
    pub fn auto_step(&mut self) -> Result<Step<'_, W, B>, Refusal> {
        self.stepped(engine::gc_step_auto)
    }

    /// What a host does after each allocation: an automatic step if the total has come to the
    /// [`threshold`](Heap::threshold), then a look at the [`limit`](Heap::limit). Where a finalizer
    /// is out it only looks at the limit.
    ///
    /// # Errors
    /// [`OverLimit`](Refusal::OverLimit) if the total is then above the limit. The step stands. A
    /// finalizer that the step hands out comes first; finishing it looks at the limit.
    ///
    /// ```
    /// use collector::{Heap, Outcome, Refusal, Sizes};
    ///
    /// let mut heap = Heap::new(Sizes::default())?;
    /// assert_eq!(heap.check()?.outcome(), Some(Outcome::Passed));
    /// heap.set_limit(100)?;
    /// assert_eq!(heap.check().unwrap_err(), Refusal::OverLimit);
    /// # Ok::<(), Refusal>(())
    /// ```
    #[doc(alias = "sieddesan_gc_check")]
    pub fn check(&mut self) -> Result<Step<'_, W, B>, Refusal> {
        self.stepped(engine::gc_check)
    }

    /// A full collection: what is under way is brought to its end, then a whole cycle is run.
    ///
    /// # Errors
    /// [`BadBuffers`](Refusal::BadBuffers) and [`Damaged`](Refusal::Damaged), as every call.
    ///
    /// ```
    /// use collector::{Heap, Outcome, Sizes};
    ///
    /// let mut heap = Heap::new(Sizes::default())?;
    /// let dropped = heap.make_table(4, 4)?;
    /// assert_eq!(heap.collect()?.outcome(), Some(Outcome::Ended));
    /// assert!(!heap.is_live(dropped)?);
    /// # Ok::<(), collector::Refusal>(())
    /// ```
    #[doc(alias = "sieddesan_full_gc")]
    pub fn collect(&mut self) -> Result<Step<'_, W, B>, Refusal> {
        self.stepped(engine::full_gc)
    }

    /// What the engine answers to the end of a finalizer.
    pub(crate) fn finished(&mut self, ok: bool) -> Result<[u32; 6], Refusal> {
        let (w, b) = self.buffers();
        gives(|out| engine::finish(w, b, ok.into(), out))
    }
}
