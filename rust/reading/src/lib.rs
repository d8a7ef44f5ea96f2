//! A second reading of document 01, in safe Rust and with none of the proved code: every public call
//! over two lent buffers, whatever they hold.
//!
//! Each file has one idea and stands in the order of the document. [`Buffers`] has the calls as the
//! header of C has them: numbers and slices, a code for the answer. What the document leaves open is
//! ruled by docs/DECISIONS.md; where that is silent too, a comment says what is read, and the crate
//! odd holds it to the proved calls. Where everything lies is [`heap::Layout`], and the audit's
//! sentence is [`audit::direct`].
//!
//! | File | Of document 01 |
//! |---|---|
//! | test1, buffers | rows 1 and 8, which every call gives first |
//! | new_heap | 'Sizes' |
//! | value, lists, arena, records | 'Slots and colours', the damage rule |
//! | marking, modes, traversal, roots | 'Followed links' |
//! | atomic, separation, weak | 'The atomic phase' |
//! | sweep, pacing, step, collect | 'Steps and pacing' |
//! | given, make, prototypes | the calls that make something, with their refusals |
//! | store, stacks, threads, settings | the calls that change something |
//! | reads, object_reads, audited | the calls that only look |
//!
//! Words that no calls make, where neither page rules, are read as the source reads its own, else
//! literally:
//!
//! - a userdata is "still white" in the current white (separation); marking takes either white (marking);
//! - a node with nil key is no entry: it does not lose a dead value (weak);
//! - a closure's prototype that is not used has no constants (traversal);
//! - the debt is one exact sum, and only then stopped at the ends of 64 bits (pacing);
//! - what was interrupted, past 5, goes on as the second half of a full collection (collect).

#![forbid(unsafe_code)]

mod arena;
mod atomic;
mod audited;
mod buffers;
mod collect;
mod given;
mod lists;
mod make;
mod marking;
mod modes;
mod new_heap;
mod object_reads;
mod pacing;
mod prototypes;
mod reads;
mod records;
mod roots;
mod separation;
mod settings;
mod stacks;
mod step;
mod store;
mod sweep;
mod test1;
mod threads;
mod traversal;
mod value;
mod weak;

pub use buffers::Buffers;
pub use new_heap::needed;
pub use test1::accepted;
