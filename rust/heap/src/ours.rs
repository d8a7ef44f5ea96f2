//! The heap in its two buffers, with what makes and reads it.

use collector::engine;
use proved::{Refused, answered};

/// What a heap of these sizes needs, words and bytes, in the first two words of `out`.
///
/// # Errors
/// Refusal 4, or 1 if `out` is too short.
pub fn needed_in(sizes: &[u32], out: &mut [u32]) -> Result<(), Refused> {
    answered(engine::needed(sizes, out))
}

/// What a heap of these sizes needs: words and bytes.
///
/// # Errors
/// Refusal 4.
pub fn needed(sizes: &[u32]) -> Result<(usize, usize), Refused> {
    let mut out = [0; 2];
    needed_in(sizes, &mut out)?;
    Ok((out[0] as usize, out[1] as usize))
}

/// The two buffers of a heap.
#[derive(Clone, Debug, PartialEq, Eq)]
pub struct Words {
    pub words: Vec<u32>,
    pub bytes: Vec<u8>,
}

impl Words {
    /// Both buffers, as a call is lent them.
    pub fn lent(&mut self) -> (&mut [u32], &mut [u8]) {
        (&mut self.words, &mut self.bytes)
    }

    /// Makes a new heap of these sizes in the buffers.
    ///
    /// # Errors
    /// Refusal 4, or 1 if a buffer is too short.
    pub fn make_heap(&mut self, sizes: &[u32]) -> Result<(), Refused> {
        let (w, b) = self.lent();
        answered(engine::make_heap(w, b, sizes))
    }
}

/// The reads: each has its numbers and the words for the answer.
macro_rules! reads {
    ($($method:ident($($number:ident),*);)*) => {
        /// The reads by numbers; `out` has the answer's four words.
        impl Words {
            $(
                /// # Errors
                /// A refusal; `out` is then as it was.
                pub fn $method(&self, $($number: u32,)* out: &mut [u32]) -> Result<(), Refused> {
                    answered(engine::$method(&self.words, &self.bytes, $($number,)* out))
                }
            )*
        }
    };
}

reads! {
    read_counter(counter);
    read_size(size);
    read_out();
    read_root(root, index);
    read_main(field, index);
    read_list(list, field, index);
    read_arena(kind, field, index);
    read_string(index, generation, field, at);
    read_table(index, generation, field, at);
    read_closure(index, generation, field, at);
    read_upvalue(index, generation, field);
    read_userdata(index, generation, field);
    read_thread(index, generation, field, at);
    read_proto(number, field, at);
}
