//! Every call of the proved collector on odd buffers, beside a second reading of document 01 (the crate
//! [`reading`]): the answer, every word and every byte, and the time it took.
//!
//! [`rows`] has every call once, [`draw`] its arguments. Buffers are [`arbitrary`], also with a header that
//! test 1 accepts; [`good`] heaps that are [`damage`]d, or of which one word is changed at a time; and
//! heaps [`cut`] to every length around the needed one. [`run`] draws them by a seed. [`judge`] gives a
//! call to both and holds its time to the [`bound`]; what differs is made small by [`shrink`] and told by
//! [`finding`]. [`slow`] has heaps on which a call has most to do.
//!
//! `cargo run --offline --release -p odd --bin compare_odd 1000000 1` compares a million calls, the
//! script `memory` beside this crate's Cargo.toml makes a few thousand under valgrind.

#![forbid(unsafe_code)]

pub mod arbitrary;
pub mod bound;
pub mod cut;
pub mod damage;
pub mod draw;
mod fill;
pub mod finding;
pub mod good;
pub mod judge;
pub mod rows;
pub mod run;
pub mod shrink;
pub mod slow;
pub mod tally;
