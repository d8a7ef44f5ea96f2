//! A garbage collector for Lua 5.1 objects, proved, behind a safe interface.
//!
//! A [`Heap`] lives in two buffers, of 32-bit words and of bytes, and never leaves them. It holds
//! strings, tables, closures, upvalues, userdata and threads, each named by a typed handle, and an
//! incremental collector with weak tables and finalizers, which does what the collector of the Rust
//! virtual machine rilua does.
//!
//! It is for hosts whose scripts hold things that must not be dropped: in a cinema server each
//! parity rebuild is a userdata, a lease, and a scrub must not run onto stripes whose lease is in
//! use.
//!
//! ```
//! use collector::{Heap, Outcome, Refusal, Sizes};
//!
//! # fn main() -> Result<(), Refusal> {
//! let mut heap = Heap::new(Sizes::default())?;
//!
//! // A metatable with `__gc`: userdata that have it are handed out before they are freed.
//! let metatable = heap.make_table(0, 1)?;
//! let gc = heap.gc_name()?;
//! heap.table_set_node(metatable, 0, gc, true)?;
//! heap.push(metatable)?;
//!
//! let lease = heap.make_userdata()?;
//! heap.userdata_set_metatable(lease, metatable)?;
//! heap.push(lease)?;
//! assert_eq!(heap.collect()?.outcome(), Some(Outcome::Ended), "the stack holds it");
//!
//! heap.pop()?;
//! heap.collect()?.run_finalizers(|out| println!("{} is released", out.userdata()))?;
//! assert!(heap.is_live(lease)?, "its finalizer has run; the next cycle frees it");
//!
//! heap.collect()?.run_finalizers(|_| unreachable!("none is handed out twice"))?;
//! assert_eq!(heap.push(lease), Err(Refusal::Stale));
//! # Ok(())
//! # }
//! ```
//!
//! # What is proved
//!
//! The engine, which is written in Rattle and linked from static libraries, is proved: every call
//! ends, stays within its buffers and answers what its definition says, whatever the buffers hold;
//! and a collection frees exactly what nothing reaches, however it is cut into steps. This crate is
//! not: it is a thin layer that passes slices and turns numbers into types. Its tests hold it to
//! the engine, and all that is unsafe in it stands in one file, [`engine`].
//!
//! # How it is used
//!
//! - Every call is a method of [`Heap`] and answers a `Result`. A [`Refusal`] says which rule it
//!   met, and a refused call has changed nothing.
//! - Indices and sizes are `u32`, as the heap has them, and count from 0.
//! - A handle may be kept as long as one likes. Once its object was freed, it names nothing.
//! - The collector works only when it is asked to: by [`Heap::step`] with a budget,
//!   [`Heap::check`] after allocations, or [`Heap::collect`].
//! - A [`Step`] may hand a [`Finalizer`] out. It is a guard that cannot be forgotten: dropped
//!   without [`finish`](Finalizer::finish), it counts as a finalizer that failed.
//!
//! The crate needs `alloc` and no `std`. Only [`Heap::new`] and [`Heap::string_bytes`] allocate.

#![no_std]
#![deny(missing_docs, unsafe_code)]

extern crate alloc;

mod answer;
mod closures;
mod counters;
#[allow(unsafe_code)]
pub mod engine;
mod finalizer;
mod handles;
mod heap;
mod kind;
mod lists;
mod main_thread;
mod make;
mod protos;
mod refusal;
mod roots;
mod settings;
mod sizes;
mod slots;
mod steps;
mod strings;
mod tables;
mod threads;
mod upvalues;
mod userdata;
mod value;

pub use counters::{Interrupted, Phase};
pub use finalizer::Finalizer;
pub use handles::{
    FunctionRef, Handle, Proto, StringRef, TableRef, ThreadRef, UpvalueRef, UserdataRef,
};
pub use heap::Heap;
pub use kind::Kind;
pub use lists::{Item, List};
pub use refusal::Refusal;
pub use roots::Type;
pub use sizes::{Needed, Sizes};
pub use slots::Colour;
pub use steps::{Outcome, Step};
pub use value::Value;

/// The README's examples run as tests too.
#[cfg(doctest)]
#[doc = include_str!("../README.md")]
struct Readme;
