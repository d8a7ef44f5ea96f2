//! Stacks and lists of upvalues, once for the main record and for threads; and the calls on the main
//! record.

use crate::buffers::{Buffers, Heap, Told, unless};
use crate::given::value;
use crate::value::{Handle, NIL, Value};
use heap::ask::Kind;
use heap::layout::{HANDLE, VALUE, header};
use proved::Refused;

/// A function index is at most this.
const MOST_FUNCTION: u32 = 256;

/// A stack of values or a list of upvalues: the place of its count, its first place, its room, and the
/// count as it is read.
#[derive(Clone, Copy)]
pub(crate) struct Counted {
    pub count: usize,
    pub first: usize,
    pub room: usize,
    pub held: usize,
}

impl Counted {
    fn value(self, i: usize) -> usize {
        self.first + VALUE * i
    }

    fn handle(self, i: usize) -> usize {
        self.first + HANDLE * i
    }
}

impl Heap<'_> {
    pub fn stack_places(&self) -> usize {
        self.words[7] as usize
    }

    pub fn frames(&self) -> usize {
        self.words[9] as usize
    }

    fn main_stack(&self) -> Counted {
        Counted {
            count: header::TOP,
            first: self.layout.stack,
            room: self.stack_places(),
            held: self.words[header::TOP] as usize,
        }
    }

    fn main_opens(&self) -> Counted {
        Counted {
            count: header::OPENS,
            first: self.layout.opens,
            room: self.words[8] as usize,
            held: self.words[header::OPENS] as usize,
        }
    }

    pub fn push_value(&mut self, stack: Counted, value: Value) -> Told<()> {
        unless(stack.held < stack.room, 4)?;
        self.sound(value)?;
        self.set_value(stack.value(stack.held), value);
        self.words[stack.count] = stack.held as u32 + 1;
        Ok(())
    }

    /// The value stays where it is.
    pub fn pop_value(&mut self, stack: Counted) -> Told<[u32; 3]> {
        let last = stack.held.checked_sub(1).ok_or(Refused(5))?;
        self.words[stack.count] = last as u32;
        Ok(self.value(stack.value(last)).words())
    }

    /// Any place of the stack, also at or above the top.
    pub fn set_place(&mut self, stack: Counted, i: u32, value: Value) -> Told<()> {
        unless((i as usize) < stack.room, 4)?;
        self.sound(value)?;
        self.set_value(stack.value(i as usize), value);
        Ok(())
    }

    /// Raising fills with nil.
    pub fn set_top_of(&mut self, stack: Counted, top: u32) -> Told<()> {
        unless(top as usize <= stack.room, 4)?;
        for i in stack.held..top as usize {
            self.set_value(stack.value(i), NIL);
        }
        self.words[stack.count] = top;
        Ok(())
    }

    pub fn push_upvalue(&mut self, list: Counted, upvalue: Handle) -> Told<()> {
        unless(list.held < list.room, 4)?;
        self.found(Kind::Upvalues, upvalue)?;
        self.set_handle(list.handle(list.held), upvalue);
        self.words[list.count] = list.held as u32 + 1;
        Ok(())
    }

    /// What is cut off becomes 0.
    pub fn cut(&mut self, list: Counted, count: u32) -> Told<()> {
        unless(count as usize <= list.held, 4)?;
        let cut = list.held - count as usize;
        self.zero(list.handle(count as usize), HANDLE * cut);
        self.words[list.count] = count;
        Ok(())
    }

    fn set_frame(&mut self, frame: u32, function: u32) -> Told<()> {
        let fits = (frame as usize) < self.frames() && function <= MOST_FUNCTION;
        unless(fits, 4)?;
        self.words[self.layout.frames + frame as usize] = function;
        Ok(())
    }

    fn set_ci(&mut self, frame: u32) -> Told<()> {
        unless((frame as usize) < self.frames(), 4)?;
        self.words[header::CI] = frame;
        Ok(())
    }

    /// A value of a record that no barrier guards.
    pub fn set_field(&mut self, place: usize, value: Value) -> Told<()> {
        self.sound(value)?;
        self.set_value(place, value);
        Ok(())
    }
}

impl Buffers<'_> {
    pub fn push(&mut self, tag: u32, low: u32, high: u32) -> u32 {
        self.call(|h| h.push_value(h.main_stack(), value((tag, low, high))?))
    }

    pub fn pop(&mut self, out: &mut [u32]) -> u32 {
        self.tell(out, |h| h.pop_value(h.main_stack()))
    }

    pub fn stack_set(&mut self, i: u32, tag: u32, low: u32, high: u32) -> u32 {
        self.call(|h| h.set_place(h.main_stack(), i, value((tag, low, high))?))
    }

    pub fn set_top(&mut self, top: u32) -> u32 {
        self.call(|h| h.set_top_of(h.main_stack(), top))
    }

    pub fn open_push(&mut self, index: u32, generation: u32) -> u32 {
        self.call(|h| h.push_upvalue(h.main_opens(), (index, generation)))
    }

    pub fn open_cut(&mut self, count: u32) -> u32 {
        self.call(|h| h.cut(h.main_opens(), count))
    }

    pub fn set_frame(&mut self, frame: u32, function: u32) -> u32 {
        self.call(|h| h.set_frame(frame, function))
    }

    pub fn set_ci(&mut self, frame: u32) -> u32 {
        self.call(|h| h.set_ci(frame))
    }

    pub fn set_error(&mut self, tag: u32, low: u32, high: u32) -> u32 {
        self.call(|h| h.set_field(header::ERROR, value((tag, low, high))?))
    }

    pub fn set_hook(&mut self, tag: u32, low: u32, high: u32) -> u32 {
        self.call(|h| h.set_field(header::HOOK, value((tag, low, high))?))
    }
}
