//! The audit of the proved heap, beside the oracle's on the heaps that calls make, and beside a
//! [`direct`] reading of the words where they are damaged.

#![forbid(unsafe_code)]

mod damage;
pub mod direct;
mod ours;
mod states;

pub use damage::{Damage, HARMLESS, damaged_chains, damaged_word};
pub use ours::{audit, audit_in};
pub use states::{State, states};
