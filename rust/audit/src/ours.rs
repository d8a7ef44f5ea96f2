//! The audit of the engine.

use collector::engine;
use heap::Words;
use proved::{Refused, answered};

/// The audit, its answer in the first word of `out`: 1 for yes, 0 for no.
///
/// # Errors
/// Refusal 1 or 8; 1 too if `out` is too short. It is then as it was.
pub fn audit_in(heap: &Words, out: &mut [u32]) -> Result<(), Refused> {
    answered(engine::audit(&heap.words, &heap.bytes, out))
}

/// Does the heap pass the audit?
///
/// # Errors
/// Refusal 1 or 8.
///
/// # Panics
/// If the answer is neither yes nor no.
pub fn audit(heap: &Words) -> Result<bool, Refused> {
    let mut out = [7];
    audit_in(heap, &mut out)?;
    match out[0] {
        0 => Ok(false),
        1 => Ok(true),
        n => panic!("the audit answers {n}"),
    }
}
