//! The calls that make objects: 4, 2, 6 and 3, in this order, before any change.

use crate::buffers::{Buffers, Heap, Told, unless};
use crate::given::{handles, maybe, value, values};
use crate::pacing::size;
use crate::records::{
    Closure, MOST_BYTES, MOST_HELD, MOST_PLACES, PROTOTYPES, Thread, nodes_fit, userdata,
};
use crate::test1::MOST_TOTAL;
use crate::value::{Handle, Value};
use heap::ask::Kind;
use heap::layout::{HANDLE, STRING, VALUE, header};
use proved::Refused;

/// The words of a handle.
fn told((index, generation): Handle) -> [u32; 2] {
    [index, generation]
}

impl Heap<'_> {
    /// A zeroed record of so many words: 6 where the total would pass its end, then 3. The answer is
    /// its body and its handle.
    fn make(&mut self, kind: Kind, extent: usize) -> Told<(usize, Handle)> {
        let total = self.words[header::TOTAL] + size(kind);
        unless(total <= MOST_TOTAL, 6)?;
        let (slot, handle) = self.take(kind, extent)?;
        self.words[header::TOTAL] = total;
        self.words[header::PEAK] = self.words[header::PEAK].max(total);
        Ok((self.body(kind, slot), handle))
    }

    /// One already present answers its handle; if it is in the old white it takes the current one.
    fn make_string(&mut self, text: &[u8]) -> Told<Handle> {
        unless(text.len() <= MOST_BYTES, 4)?;
        let mut slots = 0..self.fresh(Kind::Strings) as usize;
        let present =
            slots.find(|slot| self.colour(Kind::Strings, *slot) != 0 && self.text(*slot) == text);
        if let Some(slot) = present {
            if self.colour(Kind::Strings, slot) == self.other_white() {
                self.paint(Kind::Strings, slot, self.white());
            }
            return Ok((slot as u32, self.generation(Kind::Strings, slot)));
        }
        let (body, handle) = self.make(Kind::Strings, 1)?;
        self.words[body] = text.len() as u32;
        let bytes = &mut self.bytes[handle.0 as usize * STRING..][..STRING];
        bytes.fill(0);
        bytes[..text.len()].copy_from_slice(text);
        Ok(handle)
    }

    fn make_table(&mut self, array: u32, nodes: u32) -> Told<Handle> {
        let (places, node_count) = (array as usize, nodes as usize);
        unless(places <= MOST_PLACES && nodes_fit(node_count), 4)?;
        let extent = 4 + VALUE * places + 2 * VALUE * node_count;
        let (body, handle) = self.make(Kind::Tables, extent)?;
        self.words[body + 2] = array;
        self.words[body + 3] = nodes;
        Ok(handle)
    }

    fn make_lua_closure(&mut self, proto: u32, env: Handle, upvalues: &[Handle]) -> Told<Handle> {
        self.proto(proto).ok_or(Refused(4))?;
        self.sound_table(Some(env))?;
        for upvalue in upvalues {
            self.found(Kind::Upvalues, *upvalue)?;
        }
        self.sound_proto(proto, &mut [false; PROTOTYPES])?;
        let extent = 5 + HANDLE * upvalues.len();
        let (body, handle) = self.make(Kind::Functions, extent)?;
        let closure = Closure {
            body,
            rust: false,
            count: upvalues.len(),
        };
        self.write_closure(closure, Some(env));
        self.words[body + 3] = proto;
        for (i, upvalue) in upvalues.iter().enumerate() {
            self.set_handle(closure.held(i), *upvalue);
        }
        Ok(handle)
    }

    fn make_rust_closure(&mut self, env: Option<Handle>, values: &[Value]) -> Told<Handle> {
        self.sound_table(env)?;
        values.iter().try_for_each(|v| self.sound(*v))?;
        let (body, handle) = self.make(Kind::Functions, 5 + VALUE * values.len())?;
        let closure = Closure {
            body,
            rust: true,
            count: values.len(),
        };
        self.write_closure(closure, env);
        for (i, value) in values.iter().enumerate() {
            self.set_value(closure.held(i), *value);
        }
        Ok(handle)
    }

    fn write_closure(&mut self, closure: Closure, env: Option<Handle>) {
        self.words[closure.body] = u32::from(closure.rust);
        self.set_optional(closure.env(), env);
        self.words[closure.body + 4] = closure.count as u32;
    }

    /// With a value it is closed.
    fn make_upvalue(&mut self, closed: Option<Value>) -> Told<Handle> {
        closed.map_or(Ok(()), |value| self.sound(value))?;
        let (body, handle) = self.make(Kind::Upvalues, 4)?;
        if let Some(value) = closed {
            self.words[body] = 1;
            self.set_value(body + 1, value);
        }
        Ok(handle)
    }

    /// The creation number stops at the end of 64 bits.
    fn make_userdata(&mut self) -> Told<Handle> {
        let (body, handle) = self.make(Kind::Userdata, 7)?;
        let number = self.long(header::CREATION);
        self.set_long(body + userdata::CREATION, number);
        self.set_long(header::CREATION, number.saturating_add(1));
        Ok(handle)
    }

    fn make_thread(&mut self, global: Handle, stack: u32) -> Told<Handle> {
        unless(stack as usize <= MOST_PLACES, 4)?;
        self.sound_table(Some(global))?;
        let (body, handle) = self.make(Kind::Threads, 76 + VALUE * stack as usize)?;
        self.set_optional(body, Some(global));
        self.words[body + Thread::SIZE] = stack;
        Ok(handle)
    }
}

impl Buffers<'_> {
    pub fn make_string(&mut self, text: &[u8], out: &mut [u32]) -> u32 {
        self.tell(out, |h| h.make_string(text).map(told))
    }

    pub fn make_table(&mut self, array: u32, nodes: u32, out: &mut [u32]) -> u32 {
        self.tell(out, |h| h.make_table(array, nodes).map(told))
    }

    pub fn make_lua_closure(
        &mut self,
        proto: u32,
        index: u32,
        generation: u32,
        upvalues: &[u32],
        out: &mut [u32],
    ) -> u32 {
        self.tell(out, |h| {
            let upvalues = handles(upvalues, MOST_HELD)?;
            let made = h.make_lua_closure(proto, (index, generation), &upvalues);
            made.map(told)
        })
    }

    pub fn make_rust_closure(
        &mut self,
        some: u32,
        index: u32,
        generation: u32,
        held: &[u32],
        out: &mut [u32],
    ) -> u32 {
        self.tell(out, |h| {
            let env = maybe((some, index, generation))?;
            let held = values(held, MOST_HELD)?;
            h.make_rust_closure(env, &held).map(told)
        })
    }

    pub fn make_open_upvalue(&mut self, out: &mut [u32]) -> u32 {
        self.tell(out, |h| h.make_upvalue(None).map(told))
    }

    pub fn make_closed_upvalue(&mut self, tag: u32, low: u32, high: u32, out: &mut [u32]) -> u32 {
        self.tell(out, |h| {
            let value = value((tag, low, high))?;
            h.make_upvalue(Some(value)).map(told)
        })
    }

    pub fn make_userdata(&mut self, out: &mut [u32]) -> u32 {
        self.tell(out, |h| h.make_userdata().map(told))
    }

    pub fn make_thread(&mut self, index: u32, generation: u32, stack: u32, out: &mut [u32]) -> u32 {
        self.tell(out, |h| h.make_thread((index, generation), stack).map(told))
    }
}
