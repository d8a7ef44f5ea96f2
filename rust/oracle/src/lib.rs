//! The collector of rilua, unchanged, as the judge of the engine.
//!
//! The 15 source files are compiled as they are (`prepare` holds them to their hashes); around
//! them stands the smallest glue that makes of them the heap of document 01: a heap with chosen
//! sizes, one method of [`Oracle`] for each call, and the refusals of its table. What the
//! collector computes, the source computes; see README.md for the exact border.
//!
//! ```
//! use oracle::{Oracle, Sizes, Value};
//! let mut heap = Oracle::new(Sizes::default()).expect("sizes in range");
//! let kept = heap.make_string(b"ab".to_vec()).expect("room");
//! let lost = heap.make_string(b"cd".to_vec()).expect("room");
//! heap.push(Value::Str(kept)).expect("room");
//! heap.full_gc();
//! assert!(heap.is_named(kept.into()));
//! assert!(!heap.is_named(lost.into()));
//! ```

#![forbid(unsafe_code)]

// The source and what it asks of its crate root. Nothing here is judged by our lints.
#[allow(warnings, clippy::all, clippy::pedantic)]
#[rustfmt::skip]
#[path = "../source/src/api.rs"]
mod api;
#[allow(warnings, clippy::all, clippy::pedantic)]
#[rustfmt::skip]
#[path = "../source/src/error.rs"]
mod error;
#[allow(warnings, clippy::all, clippy::pedantic)]
#[rustfmt::skip]
#[path = "../source/src/handles.rs"]
mod handles;
mod shims;
mod vm;

use error::{LuaError, LuaResult};
use shims::{compile_or_undump, conversion, patch_string_constants, stdlib};

// The glue.
mod answer;
mod audit;
mod calls;
mod command;
mod driver;
mod dump;
mod field;
pub mod generate;
mod handout;
mod heap;
pub mod heapscript;
mod line;
pub mod random;
mod refs;
pub mod script;
mod sizes;
pub mod slots;
mod snapshot;
mod value;

#[cfg(test)]
mod inside;

pub use answer::{Answer, Refusal, Step};
pub use command::{Command, WORDS};
pub use driver::Driver;
pub use heap::Oracle;
pub use refs::{AnyRef, FuncRef, StrRef, TableRef, ThreadRef, UdRef, UpvalRef};
pub use sizes::Sizes;
pub use snapshot::{
    ClosureRecord, Colour, Counters, MainRecord, Phase, ProtoRecord, Slot, Slots, Snapshot,
    TableRecord, ThreadRecord, UpvalRecord, UserdataRecord, WorkItem,
};
pub use value::Value;
