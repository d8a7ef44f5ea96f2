//! One arena of ours, from the static library, beside the source's own, in one process.
//!
//! [`Ours`] is the proved arena in lent words; [`oracle::slots::Slots`] the source's `Arena<T>`,
//! unchanged. [`Pair`] makes the same operations on both and holds every slot, chain and answer of
//! one to the other after each.

pub mod list;
mod ours;
mod pair;
pub mod run;

pub use ours::{DECLARED, Ours, Swept};
pub use pair::{Answer, Operation, Pair};
pub use proved::Refused;
