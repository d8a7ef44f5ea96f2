//! The calls that store in tables, upvalues, userdata and type metatables, with their barriers. What is
//! refused is tested before any change; an owner that names nothing is 2 before its record is looked
//! at.

use crate::arena::BLACK;
use crate::buffers::{Buffers, Heap, Told, unless};
use crate::given::{Three, maybe, value};
use crate::records::{Table, userdata};
use crate::value::{Handle, Value};
use heap::ask::Kind;
use heap::layout::header;

/// Type metatables.
const TYPES: u32 = 9;

impl Heap<'_> {
    fn found_table(&self, handle: Handle) -> Told<Table> {
        Ok(self.table(self.found_body(Kind::Tables, handle)?))
    }

    fn table_set(&mut self, handle: Handle, i: u32, value: Value) -> Told<()> {
        let table = self.found_table(handle)?;
        unless((i as usize) < table.array, 4)?;
        self.sound(value)?;
        self.set_value(table.place(i as usize), value);
        self.barrier_back(handle);
        Ok(())
    }

    /// A NaN key, and nil with a value, speak of no record: they come before the table.
    fn table_set_node(&mut self, handle: Handle, j: u32, key: Value, value: Value) -> Told<()> {
        unless(!key.is_nan() && (!key.is_nil() || value.is_nil()), 4)?;
        let table = self.found_table(handle)?;
        let node = j as usize;
        unless(node < table.nodes, 4)?;
        let mut others = (0..table.nodes).filter(|other| *other != node);
        let twice = others.any(|other| self.value(table.key(other)).equals(key));
        unless(key.is_nil() || !twice, 4)?;
        self.sound(key)?;
        self.sound(value)?;
        self.set_value(table.key(node), key);
        self.set_value(table.value(node), value);
        self.barrier_back(handle);
        Ok(())
    }

    fn table_set_meta(&mut self, handle: Handle, metatable: Option<Handle>) -> Told<()> {
        let body = self.found_body(Kind::Tables, handle)?;
        self.sound_table(metatable)?;
        self.set_optional(body, metatable);
        self.barrier_back(handle);
        Ok(())
    }

    /// Closing asks for an open upvalue, setting for a closed one.
    fn upvalue_store(&mut self, handle: Handle, closed: bool, value: Value) -> Told<()> {
        let body = self.found_body(Kind::Upvalues, handle)?;
        unless(self.is_closed(body) == closed, 5)?;
        self.sound(value)?;
        self.words[body] = 1;
        self.set_value(body + 1, value);
        self.barrier_forward(self.shade(Kind::Upvalues, handle), value);
        Ok(())
    }

    fn ud_store(&mut self, handle: Handle, field: usize, table: Option<Handle>) -> Told<()> {
        let body = self.found_body(Kind::Userdata, handle)?;
        self.sound_table(table)?;
        self.set_optional(body + field, table);
        self.table_barrier(self.shade(Kind::Userdata, handle), table);
        Ok(())
    }

    /// The main record is taken as black.
    fn set_type_meta(&mut self, kind: u32, table: Option<Handle>) -> Told<()> {
        unless(kind < TYPES, 4)?;
        self.sound_table(table)?;
        self.set_optional(header::METATABLES + 2 * kind as usize, table);
        self.table_barrier(BLACK, table);
        Ok(())
    }

    fn table_barrier(&mut self, parent: u32, table: Option<Handle>) {
        if let Some((index, generation)) = table {
            self.barrier_forward(parent, Value::read(5, index, generation));
        }
    }
}

impl Buffers<'_> {
    pub fn table_set(
        &mut self,
        index: u32,
        generation: u32,
        i: u32,
        tag: u32,
        low: u32,
        high: u32,
    ) -> u32 {
        self.call(|h| h.table_set((index, generation), i, value((tag, low, high))?))
    }

    // As many numbers as the call has.
    #[allow(clippy::too_many_arguments)]
    pub fn table_set_node(
        &mut self,
        index: u32,
        generation: u32,
        j: u32,
        key_tag: u32,
        key_low: u32,
        key_high: u32,
        tag: u32,
        low: u32,
        high: u32,
    ) -> u32 {
        self.call(|h| {
            let key = value((key_tag, key_low, key_high))?;
            h.table_set_node((index, generation), j, key, value((tag, low, high))?)
        })
    }

    pub fn table_set_meta(&mut self, index: u32, generation: u32, s: u32, i: u32, g: u32) -> u32 {
        self.call(|h| h.table_set_meta((index, generation), maybe((s, i, g))?))
    }

    pub fn upvalue_close(&mut self, index: u32, generation: u32, t: u32, l: u32, h: u32) -> u32 {
        self.upvalue((index, generation), false, (t, l, h))
    }

    pub fn upvalue_set(&mut self, index: u32, generation: u32, t: u32, l: u32, h: u32) -> u32 {
        self.upvalue((index, generation), true, (t, l, h))
    }

    fn upvalue(&mut self, handle: Handle, closed: bool, words: Three) -> u32 {
        self.call(|h| h.upvalue_store(handle, closed, value(words)?))
    }

    pub fn ud_set_meta(&mut self, index: u32, generation: u32, s: u32, i: u32, g: u32) -> u32 {
        self.call(|h| h.ud_store((index, generation), 0, maybe((s, i, g))?))
    }

    pub fn ud_set_env(&mut self, index: u32, generation: u32, s: u32, i: u32, g: u32) -> u32 {
        self.call(|h| h.ud_store((index, generation), userdata::ENV, maybe((s, i, g))?))
    }

    pub fn set_type_meta(&mut self, kind: u32, s: u32, i: u32, g: u32) -> u32 {
        self.call(|h| h.set_type_meta(kind, maybe((s, i, g))?))
    }
}
