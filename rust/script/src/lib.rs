//! The program heapscript beside the oracle's reading of its rules, to the byte.
//!
//! [`program`] runs the compiled program on a script, [`compare`] holds what it prints to what
//! [`oracle::heapscript`] prints, [`random`] does so for random scripts and [`stored`] for the
//! examples of the repository; [`shrink`] makes a short script of one that differs.
//!
//! `rt run </dev/null` in crates/heapscript builds the program; then, in rust/,
//! `cargo run --offline --release -p script --bin compare_scripts 1000 1`.

#![forbid(unsafe_code)]

pub mod compare;
pub mod program;
pub mod random;
pub mod shrink;
pub mod stored;
pub mod tally;

pub use compare::{Difference, compared};
pub use program::{Ended, Program};
