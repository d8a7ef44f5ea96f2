//! The steps of the proved collector beside the source's, word for word.
//!
//! [`heap::words`] transcribes a heap of the oracle into the two buffers that ours has for it.
//! [`compare`] makes each step of a driven oracle on them too, through an [`Engine`]: ours, or a
//! [`StandIn`], which tries the comparison itself. [`heaps`] does so on random heaps and
//! [`shrink`] makes short scripts of what differs; [`names`] says what a word is. [`cycle`] says what
//! the program steps_cycle reads and prints.
//!
//! The feature `engine_steps`, which is on by itself, takes ours; without it the stand-in is taken.

#![forbid(unsafe_code)]

pub mod compare;
pub mod cycle;
pub mod engine;
pub mod heaps;
pub mod names;
#[cfg(feature = "engine_steps")]
mod ours;
pub mod shrink;
mod standin;
pub mod tally;

pub use engine::Engine;
pub use standin::StandIn;

/// The engine of the static libraries, if it is asked for (feature `engine_steps`).
#[must_use]
pub fn linked() -> Option<Box<dyn Engine>> {
    #[cfg(feature = "engine_steps")]
    return Some(Box::new(ours::Ours));
    #[cfg(not(feature = "engine_steps"))]
    return None;
}
