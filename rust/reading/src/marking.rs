//! Marking: a white object becomes gray and is listed, or, where it has few links, black at once with
//! those links marked.

use crate::arena::{BLACK, GRAY};
use crate::buffers::Heap;
use crate::lists::Item;
use crate::records::userdata;
use crate::value::{Handle, Value};
use heap::ask::{Kind, List};

impl Heap<'_> {
    /// What a handle names is marked if it is in either white; else nothing changes.
    pub fn mark(&mut self, kind: Kind, handle: Handle) {
        let Some(slot) = self.named(kind, handle) else {
            return;
        };
        if !matches!(self.colour(kind, slot), 1 | 2) {
            return;
        }
        match kind {
            Kind::Tables | Kind::Functions | Kind::Threads => {
                self.paint(kind, slot, GRAY);
                self.push(List::Gray, Item::Object(kind, handle));
            }
            Kind::Strings => self.paint(kind, slot, BLACK),
            Kind::Userdata => self.blacken_userdata(slot),
            Kind::Upvalues => {
                self.paint(kind, slot, BLACK);
                let body = self.body(kind, slot);
                if self.is_closed(body) {
                    self.mark_value(self.value(body + 1));
                }
            }
        }
    }

    /// A userdata is black, its metatable and env are marked.
    pub fn blacken_userdata(&mut self, slot: usize) {
        self.paint(Kind::Userdata, slot, BLACK);
        let body = self.body(Kind::Userdata, slot);
        self.mark_table(self.metatable(body));
        self.mark_table(self.optional(body + userdata::ENV));
    }

    pub fn mark_value(&mut self, value: Value) {
        if let Some((kind, handle)) = value.object() {
            self.mark(kind, handle);
        }
    }

    pub fn mark_table(&mut self, table: Option<Handle>) {
        if let Some(table) = table {
            self.mark(Kind::Tables, table);
        }
    }

    pub fn mark_values(&mut self, places: impl Iterator<Item = usize>) {
        for place in places {
            self.mark_value(self.value(place));
        }
    }

    pub fn mark_upvalues(&mut self, places: impl Iterator<Item = usize>) {
        for place in places {
            self.mark(Kind::Upvalues, self.handle(place));
        }
    }
}
