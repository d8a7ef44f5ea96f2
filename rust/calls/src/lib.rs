//! Every call of the proved collector beside the source's, word for word.
//!
//! [`Collector`] is a heap of ours with every call by its name and on plain types, from the static
//! libraries. [`give`] gives it a command of the oracle's script language; [`compare`] gives each
//! command of a driven oracle to both and compares the answer, every word and every byte. The heap
//! of ours is made by our own calls alone, from `make_heap` on. [`heaps`] does so on random heaps, with
//! commands of the oracle's generator that [`bend`] sometimes takes to an edge.

#![forbid(unsafe_code)]

pub mod bend;
pub mod collector;
pub mod compare;
pub mod give;
pub mod heaps;
pub mod tally;

pub use self::collector::Collector;
