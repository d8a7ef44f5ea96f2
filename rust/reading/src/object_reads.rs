//! Reads of objects by handle (2, after 4 for the question and before 4 for the place), and of prototypes
//! by number.

use crate::buffers::{Buffers, Heap, Told, unless};
use crate::reads::{Answer, below, number, table, upvalue, value};
use crate::records::{Thread, userdata};
use crate::value::Handle;
use heap::ask::Kind;
use proved::Refused;

fn flag(b: bool) -> Answer {
    number(b.into())
}

impl Heap<'_> {
    fn read_string(&self, handle: Handle, field: u32, at: u32) -> Told<Answer> {
        unless(field < 2, 4)?;
        let text = self.text(self.found(Kind::Strings, handle)?);
        let n = match field {
            0 => text.len() as u64,
            _ => text[below(at, text.len())?].into(),
        };
        Ok(number(n))
    }

    fn read_table(&self, handle: Handle, field: u32, at: u32) -> Told<Answer> {
        unless(field < 6, 4)?;
        let found = self.table(self.found_body(Kind::Tables, handle)?);
        Ok(match field {
            0 => table(self.metatable(found.body)),
            1 => number(found.array as u64),
            2 => number(found.nodes as u64),
            3 => value(self.value(found.place(below(at, found.array)?))),
            4 => value(self.value(found.key(below(at, found.nodes)?))),
            _ => value(self.value(found.value(below(at, found.nodes)?))),
        })
    }

    /// A Lua closure has no values, a Rust closure no upvalues.
    fn read_closure(&self, handle: Handle, field: u32, at: u32) -> Told<Answer> {
        unless(field < 6, 4)?;
        let closure = self.closure(self.found_body(Kind::Functions, handle)?);
        Ok(match field {
            0 => flag(closure.rust),
            1 => table(self.optional(closure.env())),
            2 => self.word(closure.body + 3),
            3 => number(closure.count as u64),
            4 => {
                unless(!closure.rust, 4)?;
                upvalue(self.handle(closure.held(below(at, closure.count)?)))
            }
            _ => {
                unless(closure.rust, 4)?;
                value(self.value(closure.held(below(at, closure.count)?)))
            }
        })
    }

    fn read_upvalue(&self, handle: Handle, field: u32) -> Told<Answer> {
        unless(field < 2, 4)?;
        let body = self.found_body(Kind::Upvalues, handle)?;
        Ok(match field {
            0 => flag(self.is_closed(body)),
            _ => value(self.value(body + 1)),
        })
    }

    fn read_userdata(&self, handle: Handle, field: u32) -> Told<Answer> {
        unless(field < 4, 4)?;
        let body = self.found_body(Kind::Userdata, handle)?;
        Ok(match field {
            0 => table(self.metatable(body)),
            1 => table(self.optional(body + userdata::ENV)),
            2 => number(self.long(body + userdata::CREATION)),
            _ => flag(self.is_finalized(body)),
        })
    }

    fn read_thread(&self, handle: Handle, field: u32, at: u32) -> Told<Answer> {
        unless(field < 10, 4)?;
        let thread = self.thread(self.found_body(Kind::Threads, handle)?);
        Ok(match field {
            0 => table(self.optional(thread.body)),
            1 => value(self.value(thread.body + Thread::HOOK)),
            2 => value(self.value(thread.body + Thread::ERROR)),
            3 => number(thread.size as u64),
            4 => number(thread.top as u64),
            5 => number(thread.opens as u64),
            6 => number(thread.suspended as u64),
            7 => upvalue(self.handle(thread.open(below(at, thread.opens)?))),
            8 => upvalue(self.handle(thread.suspended(below(at, thread.suspended)?))),
            _ => value(self.value(thread.place(below(at, thread.size)?))),
        })
    }

    fn read_proto(&self, which: u32, field: u32, at: u32) -> Told<Answer> {
        unless(field < 5, 4)?;
        let proto = self.proto(which).ok_or(Refused(4))?;
        Ok(match field {
            0 => number(self.constants(proto).count() as u64),
            1 => number(self.nested(proto).count() as u64),
            2 => self.word(proto + 2),
            3 => {
                let place = self.constants(proto).nth(at as usize);
                value(self.value(place.ok_or(Refused(4))?))
            }
            _ => {
                let place = self.nested(proto).nth(at as usize);
                self.word(place.ok_or(Refused(4))?)
            }
        })
    }
}

impl Buffers<'_> {
    pub fn read_string(&mut self, i: u32, g: u32, field: u32, at: u32, out: &mut [u32]) -> u32 {
        self.tell(out, |h| h.read_string((i, g), field, at))
    }

    pub fn read_table(&mut self, i: u32, g: u32, field: u32, at: u32, out: &mut [u32]) -> u32 {
        self.tell(out, |h| h.read_table((i, g), field, at))
    }

    pub fn read_closure(&mut self, i: u32, g: u32, field: u32, at: u32, out: &mut [u32]) -> u32 {
        self.tell(out, |h| h.read_closure((i, g), field, at))
    }

    pub fn read_upvalue(&mut self, i: u32, g: u32, field: u32, out: &mut [u32]) -> u32 {
        self.tell(out, |h| h.read_upvalue((i, g), field))
    }

    pub fn read_userdata(&mut self, i: u32, g: u32, field: u32, out: &mut [u32]) -> u32 {
        self.tell(out, |h| h.read_userdata((i, g), field))
    }

    pub fn read_thread(&mut self, i: u32, g: u32, field: u32, at: u32, out: &mut [u32]) -> u32 {
        self.tell(out, |h| h.read_thread((i, g), field, at))
    }

    pub fn read_proto(&mut self, number: u32, field: u32, at: u32, out: &mut [u32]) -> u32 {
        self.tell(out, |h| h.read_proto(number, field, at))
    }
}
