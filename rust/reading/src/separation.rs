//! Userdata that are due their finalizers.

use crate::arena::GRAY;
use crate::buffers::Heap;
use crate::lists::Item;
use crate::records::userdata;
use heap::ask::{Kind, List};

impl Heap<'_> {
    /// Userdata in the current white, not finalized, whose metatable has a non-nil `__gc`: set
    /// finalized, gray, and queued by rising creation number, ties by index. How many there were.
    pub fn separate(&mut self) -> u32 {
        let all = 0..self.fresh(Kind::Userdata) as usize;
        let mut due: Vec<usize> = all.filter(|slot| self.is_due(*slot)).collect();
        due.sort_by_key(|slot| self.long(self.body(Kind::Userdata, *slot) + userdata::CREATION));
        for slot in &due {
            let body = self.body(Kind::Userdata, *slot);
            self.words[body + userdata::FINALIZED] = 1;
            self.paint(Kind::Userdata, *slot, GRAY);
            let handle = (*slot as u32, self.generation(Kind::Userdata, *slot));
            self.push(List::Queue, Item::Object(Kind::Userdata, handle));
        }
        due.len() as u32
    }

    fn is_due(&self, slot: usize) -> bool {
        let body = self.body(Kind::Userdata, slot);
        self.colour(Kind::Userdata, slot) == self.white()
            && !self.is_finalized(body)
            && !self.finalizer(self.metatable(body)).is_nil()
    }

    /// All that is queued, and what it reaches, is kept.
    pub fn mark_queue(&mut self) {
        for at in 0..self.length(List::Queue) {
            if let Item::Object(Kind::Userdata, handle) = self.item(List::Queue, at)
                && let Some(slot) = self.named(Kind::Userdata, handle)
            {
                self.blacken_userdata(slot);
            }
        }
    }
}
