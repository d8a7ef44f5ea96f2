//! The atomic phase.

use crate::buffers::Heap;
use crate::lists::Item;
use crate::roots::phase;
use heap::ask::{Kind, List};
use heap::layout::header;

/// What a userdata takes in the total.
const USERDATA_SIZE: u32 = 48;

impl Heap<'_> {
    /// The main thread again, grayagain in order, all gray; the due and what they reach; the white
    /// flips; weak tables; then the sweep begins.
    pub fn atomic(&mut self) {
        self.mark_main();
        for at in 0..self.length(List::Grayagain) {
            self.traverse_again(self.item(List::Grayagain, at));
        }
        self.empty(List::Grayagain);
        self.propagate_all();
        let due = self.separate();
        self.mark_queue();
        self.propagate_all();
        self.words[header::WHITE] = self.other_white();
        self.clear_weak_tables();
        let due = USERDATA_SIZE * due;
        self.words[header::ESTIMATE] = self.words[header::TOTAL].saturating_sub(due);
        self.begin_sweep();
    }

    fn traverse_again(&mut self, item: Item) {
        match item {
            Item::Object(Kind::Tables, handle) => {
                self.traverse_table(handle);
            }
            Item::Object(Kind::Functions, handle) => {
                self.traverse_closure(handle);
            }
            Item::Object(Kind::Threads, handle) => self.traverse_thread_again(handle),
            Item::Object(..) | Item::Main | Item::Unknown => {}
        }
    }

    /// From the first string on.
    pub fn begin_sweep(&mut self) {
        self.words[header::PHASE] = phase::SWEEP_STRING;
        self.set_cursor(0, 0);
    }
}
