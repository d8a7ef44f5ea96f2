//! The source's `vm` modules, each from its own unchanged file.
//!
//! Two of them keep fields to themselves that a judge must see: the arena its slots, the table
//! its nodes. Each uses one standard macro exactly once inside a function body, so a macro of the
//! same name, standing in textual scope just before the module, adds accessors there and then
//! does what the standard one does. These two modules stand last: later ones would see the
//! macros too. No formatter may touch what these paths name.

#![allow(warnings, clippy::all, clippy::pedantic)]

pub use crate::shims::{debug_info, execute};

#[rustfmt::skip]
#[path = "../source/src/vm/callinfo.rs"]
pub mod callinfo;
#[rustfmt::skip]
#[path = "../source/src/vm/closure.rs"]
pub mod closure;
#[rustfmt::skip]
#[path = "../source/src/vm/metatable.rs"]
pub mod metatable;
#[rustfmt::skip]
#[path = "../source/src/vm/proto.rs"]
pub mod proto;
#[rustfmt::skip]
#[path = "../source/src/vm/state.rs"]
pub mod state;
#[rustfmt::skip]
#[path = "../source/src/vm/string.rs"]
pub mod string;
#[rustfmt::skip]
#[path = "../source/src/vm/value.rs"]
pub mod value;

macro_rules! debug_assert {
    ($($asserted:tt)*) => {
        impl Table {
            /// Writes array place `i`; the caller has bounded it.
            pub(crate) fn put_array(&mut self, i: usize, value: Val) {
                self.array[i] = value;
            }
            /// Writes node `j` by place, moving nothing; the caller has bounded it.
            pub(crate) fn put_node(&mut self, j: usize, key: Val, value: Val) {
                self.nodes[j].key = key;
                self.nodes[j].value = value;
            }
            /// Sets where a lookup goes on from node `j`.
            pub(crate) fn put_next(&mut self, j: usize, next: Option<u32>) {
                self.nodes[j].next = next;
            }
        }
        ::std::debug_assert!($($asserted)*)
    };
}
#[rustfmt::skip]
#[path = "../source/src/vm/table.rs"]
pub mod table;

macro_rules! write {
    ($($written:tt)*) => {{
        impl<T> GcRef<T> {
            /// A handle of any index and generation, stale ones too.
            pub(crate) fn named(index: u32, generation: u32) -> Self {
                Self { index, generation, _marker: PhantomData }
            }
        }
        impl<T> Arena<T> {
            /// Generation, colour byte and record of slot `i`, if there is one.
            pub(crate) fn slot(&self, i: usize) -> Option<(u32, u8, Option<&T>)> {
                let entry = self.entries.get(i)?;
                let record = match &entry.state {
                    EntryState::Occupied { value } => Some(value),
                    EntryState::Free { .. } => None,
                };
                Some((entry.generation, self.colors[i], record))
            }
            /// Gives slot `i` a generation that no test could reach by freeing.
            #[cfg(test)]
            pub(crate) fn put_generation(&mut self, i: usize, generation: u32) {
                self.entries[i].generation = generation;
            }
            /// The free chain from its head; a chain that turns back is cut after all slots.
            pub(crate) fn chain(&self) -> Vec<u32> {
                let mut seen = Vec::new();
                let mut at = self.free_head;
                while let Some(i) = at && seen.len() <= self.entries.len() {
                    seen.push(i);
                    at = match self.entries.get(i as usize).map(|e| &e.state) {
                        Some(EntryState::Free { next_free }) => *next_free,
                        _ => None,
                    };
                }
                seen
            }
        }
        ::std::write!($($written)*)
    }};
}
#[rustfmt::skip]
#[path = "../source/src/vm/gc/mod.rs"]
pub mod gc;
