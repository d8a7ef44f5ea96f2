//! Weak tables lose their dead entries.

use crate::buffers::Heap;
use crate::lists::Item;
use crate::records::Table;
use crate::value::{NIL, Value};
use heap::ask::{Kind, List};

impl Heap<'_> {
    /// After the flip: every string of the listed tables takes the new white, then entries die; the
    /// list is emptied.
    pub fn clear_weak_tables(&mut self) {
        let items = 0..self.length(List::Weak);
        for at in items.clone() {
            if let Some(table) = self.weak_table(at) {
                self.keep_strings(table);
            }
        }
        for at in items {
            if let Some(table) = self.weak_table(at) {
                self.clear_dead(table);
            }
        }
        self.empty(List::Weak);
    }

    /// An item that is no table's is unknown here.
    fn weak_table(&self, at: usize) -> Option<Table> {
        match self.item(List::Weak, at) {
            Item::Object(Kind::Tables, handle) => {
                let body = self.named_body(Kind::Tables, handle)?;
                Some(self.table(body))
            }
            _ => None,
        }
    }

    /// In the array, or as key or value of a node with non-nil key.
    fn keep_strings(&mut self, table: Table) {
        for i in 0..table.array {
            self.keep_string(self.value(table.place(i)));
        }
        for j in 0..table.nodes {
            let key = self.value(table.key(j));
            if !key.is_nil() {
                self.keep_string(key);
                self.keep_string(self.value(table.value(j)));
            }
        }
    }

    fn keep_string(&mut self, value: Value) {
        if let Some((Kind::Strings, handle)) = value.object()
            && let Some(slot) = self.named(Kind::Strings, handle)
        {
            self.paint(Kind::Strings, slot, self.white());
        }
    }

    /// A dead array value is nil; a dead node loses its value and keeps its key.
    fn clear_dead(&mut self, table: Table) {
        let mode = self.mode(self.metatable(table.body));
        for i in 0..table.array {
            if mode.values && self.is_dead(self.value(table.place(i)), false) {
                self.set_value(table.place(i), NIL);
            }
        }
        for j in 0..table.nodes {
            let (key, value) = (self.value(table.key(j)), self.value(table.value(j)));
            let dead =
                mode.keys && self.is_dead(key, true) || mode.values && self.is_dead(value, false);
            if !key.is_nil() && dead {
                self.set_value(table.value(j), NIL);
            }
        }
    }

    /// A table, function, userdata or thread in the old white; as a value also a finalized userdata.
    fn is_dead(&self, value: Value, is_key: bool) -> bool {
        let Some((kind, handle)) = value.object() else {
            return false;
        };
        let Some(slot) = self.named(kind, handle) else {
            return false;
        };
        let white = self.colour(kind, slot) == self.other_white();
        match kind {
            Kind::Strings => false,
            Kind::Userdata if !is_key => white || self.is_finalized(self.body(kind, slot)),
            _ => white,
        }
    }
}
