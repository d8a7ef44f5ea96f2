//! Traversal: what is gray becomes black and its links are marked. Each answers its cost; a handle that
//! names nothing costs as an empty object and changes nothing.

use crate::arena::BLACK;
use crate::buffers::Heap;
use crate::lists::Item;
use crate::records::{PROTOTYPES, Thread};
use crate::value::Handle;
use heap::ask::{Kind, List};
use heap::layout::{HANDLE, VALUE, header};

impl Heap<'_> {
    /// The metatable; the weak list if a mode is set; then what the mode leaves.
    pub fn traverse_table(&mut self, handle: Handle) -> u64 {
        let Some(slot) = self.named(Kind::Tables, handle) else {
            return 64;
        };
        let table = self.table(self.body(Kind::Tables, slot));
        let metatable = self.metatable(table.body);
        let mode = self.mode(metatable);
        self.paint(Kind::Tables, slot, BLACK);
        self.mark_table(metatable);
        if mode.keys || mode.values {
            self.push(List::Weak, Item::Object(Kind::Tables, handle));
        }
        if !mode.values {
            self.mark_values((0..table.array).map(|i| table.place(i)));
        }
        for j in 0..table.nodes {
            let (key, value) = (self.value(table.key(j)), self.value(table.value(j)));
            if key.is_nil() || value.is_nil() {
                continue;
            }
            if !mode.keys {
                self.mark_value(key);
            }
            if !mode.values {
                self.mark_value(value);
            }
        }
        64 + 16 * table.array as u64 + 32 * table.nodes as u64
    }

    /// Env; of a Lua closure upvalues and constants, of a Rust closure values. A Rust closure costs as
    /// in the source, 48 + 16 for each value: docs/DIFFERENCES.md.
    pub fn traverse_closure(&mut self, handle: Handle) -> u64 {
        let Some(slot) = self.named(Kind::Functions, handle) else {
            return 48;
        };
        let closure = self.closure(self.body(Kind::Functions, slot));
        self.paint(Kind::Functions, slot, BLACK);
        self.mark_table(self.optional(closure.env()));
        let held = (0..closure.count).map(|i| closure.held(i));
        if closure.rust {
            self.mark_values(held);
            return 48 + 16 * closure.count as u64;
        }
        self.mark_upvalues(held);
        self.mark_constants(self.words[closure.body + 3], &mut [false; PROTOTYPES]);
        48 + 8 * closure.count as u64
    }

    /// The constants of a prototype and of all nested ones. A number not used is no prototype; a nested
    /// one not below its parent's is skipped. One seen before has nothing left to mark.
    fn mark_constants(&mut self, number: u32, seen: &mut [bool; PROTOTYPES]) {
        let Some(proto) = self.proto(number) else {
            return;
        };
        if std::mem::replace(&mut seen[number as usize], true) {
            return;
        }
        self.mark_values(self.constants(proto));
        for place in self.nested(proto) {
            let nested = self.words[place];
            if nested < number {
                self.mark_constants(nested, seen);
            }
        }
    }

    /// Global, hook, stack below top, open and suspended upvalues; then it waits for the atomic phase.
    pub fn traverse_thread(&mut self, handle: Handle) -> u64 {
        let Some(slot) = self.named(Kind::Threads, handle) else {
            return 256;
        };
        let thread = self.thread(self.body(Kind::Threads, slot));
        self.paint(Kind::Threads, slot, BLACK);
        self.mark_table(self.optional(thread.body));
        self.mark_value(self.value(thread.body + Thread::HOOK));
        self.mark_stack(thread);
        self.push(List::Grayagain, Item::Object(Kind::Threads, handle));
        256 + 16 * thread.size as u64
    }

    /// In the atomic phase: without the hook, as in the source, and listed no more.
    pub fn traverse_thread_again(&mut self, handle: Handle) {
        if let Some(slot) = self.named(Kind::Threads, handle) {
            let thread = self.thread(self.body(Kind::Threads, slot));
            self.paint(Kind::Threads, slot, BLACK);
            self.mark_table(self.optional(thread.body));
            self.mark_stack(thread);
        }
    }

    fn mark_stack(&mut self, thread: Thread) {
        self.mark_values((0..thread.top).map(|i| thread.place(i)));
        self.mark_upvalues((0..thread.opens).map(|i| thread.open(i)));
        self.mark_upvalues((0..thread.suspended).map(|i| thread.suspended(i)));
    }

    /// Stack below top, open upvalues, error, hook, and the stack value at the function index of each
    /// frame up to `ci`, also above top.
    pub fn mark_main(&mut self) {
        let [stack, opens, frames] = [self.layout.stack, self.layout.opens, self.layout.frames];
        let [top, open, ci] =
            [header::TOP, header::OPENS, header::CI].map(|place| self.words[place] as usize);
        self.mark_values((0..top).map(|i| stack + VALUE * i));
        self.mark_upvalues((0..open).map(|i| opens + HANDLE * i));
        self.mark_value(self.value(header::ERROR));
        self.mark_value(self.value(header::HOOK));
        for frame in 0..=ci {
            let function = self.words[frames + frame] as usize;
            if function < self.stack_places() {
                self.mark_value(self.value(stack + VALUE * function));
            }
        }
    }

    /// The main thread, in Propagate: it waits for the atomic phase too.
    pub fn traverse_main(&mut self) -> u64 {
        self.mark_main();
        self.push(List::Grayagain, Item::Main);
        256 + 16 * self.stack_places() as u64 + 40 * self.frames() as u64
    }
}
