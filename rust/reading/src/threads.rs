//! The calls on threads. A handle that names no thread is 2 before all that follows.

use crate::buffers::{Buffers, Heap, Told};
use crate::given::value;
use crate::records::{MOST_HELD, Thread};
use crate::stacks::Counted;
use crate::value::{Handle, Value};
use heap::ask::Kind;

impl Heap<'_> {
    fn found_thread(&self, handle: Handle) -> Told<Thread> {
        Ok(self.thread(self.found_body(Kind::Threads, handle)?))
    }

    fn thread_stack(&self, handle: Handle) -> Told<Counted> {
        let thread = self.found_thread(handle)?;
        Ok(Counted {
            count: thread.body + Thread::TOP,
            first: thread.place(0),
            room: thread.size,
            held: thread.top,
        })
    }

    fn thread_opens(&self, handle: Handle) -> Told<Counted> {
        let thread = self.found_thread(handle)?;
        Ok(Counted {
            count: thread.body + Thread::OPENS,
            first: thread.open(0),
            room: MOST_HELD,
            held: thread.opens,
        })
    }

    fn thread_suspended(&self, handle: Handle) -> Told<Counted> {
        let thread = self.found_thread(handle)?;
        Ok(Counted {
            count: thread.body + Thread::SUSPENDED,
            first: thread.suspended(0),
            room: MOST_HELD,
            held: thread.suspended,
        })
    }

    fn thread_set_global(&mut self, handle: Handle, table: Handle) -> Told<()> {
        let thread = self.found_thread(handle)?;
        self.sound_table(Some(table))?;
        self.set_optional(thread.body, Some(table));
        Ok(())
    }

    fn thread_set_error(&mut self, handle: Handle, error: Value) -> Told<()> {
        let thread = self.found_thread(handle)?;
        self.set_field(thread.body + Thread::ERROR, error)
    }

    /// The atomic phase does not visit a thread's hook again: so it has a barrier.
    fn thread_set_hook(&mut self, handle: Handle, hook: Value) -> Told<()> {
        let thread = self.found_thread(handle)?;
        self.set_field(thread.body + Thread::HOOK, hook)?;
        self.barrier_forward(self.shade(Kind::Threads, handle), hook);
        Ok(())
    }
}

impl Buffers<'_> {
    pub fn thread_push(&mut self, index: u32, generation: u32, t: u32, l: u32, h: u32) -> u32 {
        self.call(|heap| {
            let value = value((t, l, h))?;
            heap.push_value(heap.thread_stack((index, generation))?, value)
        })
    }

    pub fn thread_pop(&mut self, index: u32, generation: u32, out: &mut [u32]) -> u32 {
        self.tell(out, |h| h.pop_value(h.thread_stack((index, generation))?))
    }

    pub fn thread_set(
        &mut self,
        index: u32,
        generation: u32,
        i: u32,
        tag: u32,
        low: u32,
        high: u32,
    ) -> u32 {
        self.call(|h| {
            let value = value((tag, low, high))?;
            h.set_place(h.thread_stack((index, generation))?, i, value)
        })
    }

    pub fn thread_set_top(&mut self, index: u32, generation: u32, top: u32) -> u32 {
        self.call(|h| h.set_top_of(h.thread_stack((index, generation))?, top))
    }

    pub fn thread_open_push(&mut self, index: u32, generation: u32, i: u32, g: u32) -> u32 {
        self.call(|h| h.push_upvalue(h.thread_opens((index, generation))?, (i, g)))
    }

    pub fn thread_open_cut(&mut self, index: u32, generation: u32, count: u32) -> u32 {
        self.call(|h| h.cut(h.thread_opens((index, generation))?, count))
    }

    pub fn thread_suspended_push(&mut self, index: u32, generation: u32, i: u32, g: u32) -> u32 {
        self.call(|h| h.push_upvalue(h.thread_suspended((index, generation))?, (i, g)))
    }

    pub fn thread_suspended_cut(&mut self, index: u32, generation: u32, count: u32) -> u32 {
        self.call(|h| h.cut(h.thread_suspended((index, generation))?, count))
    }

    pub fn thread_set_global(&mut self, index: u32, generation: u32, i: u32, g: u32) -> u32 {
        self.call(|h| h.thread_set_global((index, generation), (i, g)))
    }

    pub fn thread_set_error(&mut self, index: u32, generation: u32, t: u32, l: u32, h: u32) -> u32 {
        self.call(|heap| heap.thread_set_error((index, generation), value((t, l, h))?))
    }

    pub fn thread_set_hook(&mut self, index: u32, generation: u32, t: u32, l: u32, h: u32) -> u32 {
        self.call(|heap| heap.thread_set_hook((index, generation), value((t, l, h))?))
    }
}
