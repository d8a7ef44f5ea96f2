//! The proved heap, from the crate collector, beside the source's in one process.
//!
//! [`Words`] is a heap of ours in its two lent buffers; [`Layout`] says where everything lies in
//! them, [`words`] writes a heap of the source's out at those places, [`read`] reads one of ours
//! by the exported reads, and [`compared`] holds a new heap to what [`oracle::Oracle`] has.

#![forbid(unsafe_code)]

pub mod ask;
mod compare;
pub mod layout;
mod ours;
pub mod programs;
mod reading;
pub mod sizes;
pub mod words;

pub use compare::{compared, compared_reads};
pub use layout::Layout;
pub use ours::{Words, needed, needed_in};
pub use proved::Refused;
pub use reading::read;
