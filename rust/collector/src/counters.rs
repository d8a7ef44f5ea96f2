//! Counters and marks of the header: what the collector keeps of its work.

use crate::answer::{Read, odd};
use crate::settings::limit;
use crate::{Colour, Heap, Kind, Refusal, engine};

/// The phases of a cycle.
///
/// ```
/// use collector::{Heap, Phase, Sizes};
///
/// assert_eq!(Heap::new(Sizes::default())?.phase()?, Phase::Pause);
/// # Ok::<(), collector::Refusal>(())
/// ```
#[derive(Clone, Copy, Debug, PartialEq, Eq, Hash)]
pub enum Phase {
    /// No cycle is under way.
    Pause,
    /// What the roots reach is marked. The last step of it is the atomic phase.
    Propagate,
    /// Strings are swept.
    SweepString,
    /// The other arenas are swept.
    Sweep,
    /// Userdata are handed out for their finalizers.
    Finalize,
}

/// What a finalizer that is out has interrupted, and what [`finish`](crate::Finalizer::finish) goes
/// on with.
///
/// ```
/// # use collector::{Heap, Interrupted, Sizes, Step};
/// # let mut heap = Heap::new(Sizes::default())?;
/// # let metatable = heap.make_table(0, 1)?;
/// # let gc = heap.gc_name()?;
/// # heap.table_set_node(metatable, 0, gc, true)?;
/// # let lease = heap.make_userdata()?;
/// # heap.userdata_set_metatable(lease, metatable)?;
/// if let Step::Finalizer(out) = heap.step(1_000_000)? {
///     assert_eq!(out.interrupted()?, Some(Interrupted::Budgeted));
///     let _ = out.finish()?;
/// }
/// # Ok::<(), collector::Refusal>(())
/// ```
#[derive(Clone, Copy, Debug, PartialEq, Eq, Hash)]
pub enum Interrupted {
    /// A single step.
    Single,
    /// A budgeted or automatic step.
    Budgeted,
    /// A check.
    Check,
    /// A full collection, while it brings to an end what was under way.
    FullFirst,
    /// A full collection, in its own cycle.
    FullSecond,
}

/// Reads of counters, settings and marks.
impl<W: AsRef<[u32]>, B: AsRef<[u8]>> Heap<W, B> {
    /// A question by its place in the header's list.
    fn counter(&self, counter: u32) -> Result<Read, Refusal> {
        self.ask(|w, b, out| engine::read_counter(w, b, counter, out))
    }

    /// How many prototypes are made.
    ///
    /// # Errors
    /// [`BadBuffers`](Refusal::BadBuffers) and [`Damaged`](Refusal::Damaged), as every call.
    ///
    /// ```
    /// # use collector::{Heap, Sizes};
    /// # let mut heap = Heap::new(Sizes::default())?;
    /// heap.make_proto(&[], &[])?;
    /// assert_eq!(heap.proto_count()?, 1);
    /// # Ok::<(), collector::Refusal>(())
    /// ```
    #[doc(alias = "sieddesan_read_counter")]
    pub fn proto_count(&self) -> Result<u32, Refusal> {
        Ok(self.counter(0)?.small())
    }

    /// The limit in bytes that [`check`](Heap::check) holds the total to, if there is one.
    ///
    /// # Errors
    /// [`BadBuffers`](Refusal::BadBuffers) and [`Damaged`](Refusal::Damaged), as every call.
    ///
    /// ```
    /// # use collector::{Heap, Sizes};
    /// # let mut heap = Heap::new(Sizes::default())?;
    /// assert_eq!(heap.limit()?, None);
    /// heap.set_limit(9000)?;
    /// assert_eq!(heap.limit()?, Some(9000));
    /// # Ok::<(), collector::Refusal>(())
    /// ```
    #[doc(alias = "sieddesan_read_counter")]
    pub fn limit(&self) -> Result<Option<u64>, Refusal> {
        Ok(limit(self.counter(1)?.number()))
    }

    /// The pause in percent: see [`set_pause`](Heap::set_pause).
    ///
    /// # Errors
    /// [`BadBuffers`](Refusal::BadBuffers) and [`Damaged`](Refusal::Damaged), as every call.
    ///
    /// ```
    /// # use collector::{Heap, Sizes};
    /// assert_eq!(Heap::new(Sizes::default())?.pause()?, 200);
    /// # Ok::<(), collector::Refusal>(())
    /// ```
    #[doc(alias = "sieddesan_read_counter")]
    pub fn pause(&self) -> Result<u32, Refusal> {
        Ok(self.counter(2)?.small())
    }

    /// The step multiplier in percent: see [`set_stepmul`](Heap::set_stepmul).
    ///
    /// # Errors
    /// [`BadBuffers`](Refusal::BadBuffers) and [`Damaged`](Refusal::Damaged), as every call.
    ///
    /// ```
    /// # use collector::{Heap, Sizes};
    /// assert_eq!(Heap::new(Sizes::default())?.stepmul()?, 200);
    /// # Ok::<(), collector::Refusal>(())
    /// ```
    #[doc(alias = "sieddesan_read_counter")]
    pub fn stepmul(&self) -> Result<u32, Refusal> {
        Ok(self.counter(3)?.small())
    }

    /// The creation number that the next userdata gets.
    ///
    /// # Errors
    /// [`BadBuffers`](Refusal::BadBuffers) and [`Damaged`](Refusal::Damaged), as every call.
    ///
    /// ```
    /// # use collector::{Heap, Sizes};
    /// # let mut heap = Heap::new(Sizes::default())?;
    /// let next = heap.next_creation()?;
    /// let lease = heap.make_userdata()?;
    /// assert_eq!(heap.userdata_creation(lease)?, next);
    /// # Ok::<(), collector::Refusal>(())
    /// ```
    #[doc(alias = "sieddesan_read_counter")]
    pub fn next_creation(&self) -> Result<u64, Refusal> {
        Ok(self.counter(4)?.number())
    }

    /// The phase of the cycle.
    ///
    /// # Errors
    /// [`BadBuffers`](Refusal::BadBuffers) and [`Damaged`](Refusal::Damaged), as every call.
    ///
    /// ```
    /// # use collector::{Heap, Phase, Sizes};
    /// # let mut heap = Heap::new(Sizes::default())?;
    /// heap.single_step()?.run_finalizers(|_| ())?;
    /// assert_eq!(heap.phase()?, Phase::Propagate);
    /// # Ok::<(), collector::Refusal>(())
    /// ```
    #[doc(alias = "sieddesan_read_counter")]
    pub fn phase(&self) -> Result<Phase, Refusal> {
        Ok(match self.counter(5)?.small() {
            0 => Phase::Pause,
            1 => Phase::Propagate,
            2 => Phase::SweepString,
            3 => Phase::Sweep,
            4 => Phase::Finalize,
            n => odd(&[n]),
        })
    }

    /// The current white, which new objects get. At the atomic phase it becomes the other one.
    ///
    /// # Errors
    /// [`BadBuffers`](Refusal::BadBuffers) and [`Damaged`](Refusal::Damaged), as every call.
    ///
    /// ```
    /// # use collector::{Colour, Heap, Sizes};
    /// assert_eq!(Heap::new(Sizes::default())?.white()?, Colour::White0);
    /// # Ok::<(), collector::Refusal>(())
    /// ```
    #[doc(alias = "sieddesan_read_counter")]
    pub fn white(&self) -> Result<Colour, Refusal> {
        Ok(Colour::of(self.counter(6)?.small()))
    }

    /// Where the sweep goes on after the strings: an arena and a slot of it.
    ///
    /// # Errors
    /// [`BadBuffers`](Refusal::BadBuffers) and [`Damaged`](Refusal::Damaged), as every call.
    ///
    /// ```
    /// # use collector::{Heap, Kind, Sizes};
    /// assert_eq!(Heap::new(Sizes::default())?.cursor()?, (Kind::Tables, 0));
    /// # Ok::<(), collector::Refusal>(())
    /// ```
    #[doc(alias = "sieddesan_read_counter")]
    pub fn cursor(&self) -> Result<(Kind, u32), Refusal> {
        let swept = match self.counter(7)?.small() {
            0 => Kind::Tables,
            1 => Kind::Functions,
            2 => Kind::Upvalues,
            3 => Kind::Userdata,
            _ => Kind::Threads,
        };
        Ok((swept, self.counter(8)?.small()))
    }

    /// The tracked total in bytes: 48 for a string, closure or userdata, 64 for a table, 24 for an
    /// upvalue, 256 for a thread.
    ///
    /// # Errors
    /// [`BadBuffers`](Refusal::BadBuffers) and [`Damaged`](Refusal::Damaged), as every call.
    ///
    /// ```
    /// # use collector::{Heap, Sizes};
    /// # let mut heap = Heap::new(Sizes::default())?;
    /// let before = heap.total()?;
    /// heap.make_userdata()?;
    /// assert_eq!(heap.total()?, before + 48);
    /// # Ok::<(), collector::Refusal>(())
    /// ```
    #[doc(alias = "sieddesan_read_counter")]
    pub fn total(&self) -> Result<u32, Refusal> {
        Ok(self.counter(9)?.small())
    }

    /// The most that the total has been.
    ///
    /// # Errors
    /// [`BadBuffers`](Refusal::BadBuffers) and [`Damaged`](Refusal::Damaged), as every call.
    ///
    /// ```
    /// # use collector::{Heap, Sizes};
    /// # let mut heap = Heap::new(Sizes::default())?;
    /// heap.make_userdata()?;
    /// heap.collect()?.run_finalizers(|_| ())?;
    /// assert!(heap.peak()? > heap.total()?);
    /// # Ok::<(), collector::Refusal>(())
    /// ```
    #[doc(alias = "sieddesan_read_counter")]
    pub fn peak(&self) -> Result<u32, Refusal> {
        Ok(self.counter(10)?.small())
    }

    /// What the last atomic phase took to be in use, in bytes, less what was freed since.
    ///
    /// # Errors
    /// [`BadBuffers`](Refusal::BadBuffers) and [`Damaged`](Refusal::Damaged), as every call.
    ///
    /// ```
    /// # use collector::{Heap, Sizes};
    /// # let mut heap = Heap::new(Sizes::default())?;
    /// heap.make_userdata()?; // nothing holds it
    /// heap.collect()?.run_finalizers(|_| ())?;
    /// assert_eq!(heap.estimate()?, heap.total()?);
    /// # Ok::<(), collector::Refusal>(())
    /// ```
    #[doc(alias = "sieddesan_read_counter")]
    pub fn estimate(&self) -> Result<u32, Refusal> {
        Ok(self.counter(11)?.small())
    }

    /// The total at which [`check`](Heap::check) makes a step.
    ///
    /// # Errors
    /// [`BadBuffers`](Refusal::BadBuffers) and [`Damaged`](Refusal::Damaged), as every call.
    ///
    /// ```
    /// # use collector::{Heap, Sizes};
    /// assert_eq!(Heap::new(Sizes::default())?.threshold()?, 65_536);
    /// # Ok::<(), collector::Refusal>(())
    /// ```
    #[doc(alias = "sieddesan_read_counter")]
    pub fn threshold(&self) -> Result<u64, Refusal> {
        Ok(self.counter(12)?.number())
    }

    /// How far automatic steps are behind, in bytes.
    ///
    /// # Errors
    /// [`BadBuffers`](Refusal::BadBuffers) and [`Damaged`](Refusal::Damaged), as every call.
    ///
    /// ```
    /// # use collector::{Heap, Sizes};
    /// assert_eq!(Heap::new(Sizes::default())?.debt()?, 0);
    /// # Ok::<(), collector::Refusal>(())
    /// ```
    #[doc(alias = "sieddesan_read_counter")]
    pub fn debt(&self) -> Result<i64, Refusal> {
        // It is stored plus 2^63.
        Ok((self.counter(13)?.number() ^ 1 << 63).cast_signed())
    }

    /// What the finalizer that is out has interrupted, if one is.
    ///
    /// # Errors
    /// [`BadBuffers`](Refusal::BadBuffers) and [`Damaged`](Refusal::Damaged), as every call.
    ///
    /// ```
    /// # use collector::{Heap, Sizes};
    /// assert_eq!(Heap::new(Sizes::default())?.interrupted()?, None);
    /// # Ok::<(), collector::Refusal>(())
    /// ```
    #[doc(alias = "sieddesan_read_counter")]
    pub fn interrupted(&self) -> Result<Option<Interrupted>, Refusal> {
        Ok(match self.counter(14)?.small() {
            0 => None,
            1 => Some(Interrupted::Single),
            2 => Some(Interrupted::Budgeted),
            3 => Some(Interrupted::Check),
            4 => Some(Interrupted::FullFirst),
            _ => Some(Interrupted::FullSecond),
        })
    }

    /// The budget that remains to the step that a finalizer has interrupted; 0 if none is out.
    ///
    /// # Errors
    /// [`BadBuffers`](Refusal::BadBuffers) and [`Damaged`](Refusal::Damaged), as every call.
    ///
    /// ```
    /// # use collector::{Heap, Sizes};
    /// assert_eq!(Heap::new(Sizes::default())?.remaining_budget()?, 0);
    /// # Ok::<(), collector::Refusal>(())
    /// ```
    #[doc(alias = "sieddesan_read_counter")]
    pub fn remaining_budget(&self) -> Result<u64, Refusal> {
        Ok(self.counter(15)?.number())
    }
}
