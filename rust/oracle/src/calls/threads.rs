//! Threads. Their stacks change without barrier, as in the source, which visits them again.

use crate::answer::{RANGE, Refusal, UNFIT, ensure};
use crate::heap::Oracle;
use crate::refs::{TableRef, ThreadRef, UpvalRef};
use crate::sizes;
use crate::value::Value;
use crate::vm::state::LuaThread;
use crate::vm::value::Val;

impl Oracle {
    pub fn thread_push(&mut self, h: ThreadRef, v: Value) -> Result<(), Refusal> {
        let full = |thread: &LuaThread| thread.top >= thread.stack.len();
        ensure(!self.thread(h).is_some_and(full), RANGE)?;
        self.need(h)?;
        self.need_sound(&[v])?;
        self.change_thread(h, |thread| {
            thread.stack[thread.top] = v.val();
            thread.top += 1;
        });
        Ok(())
    }

    /// Lowers the top by one and answers the value there, which stays.
    pub fn thread_pop(&mut self, h: ThreadRef) -> Result<Value, Refusal> {
        ensure(self.thread(h).is_none_or(|thread| thread.top > 0), UNFIT)?;
        self.need(h)?;
        self.change_thread(h, |thread| thread.top -= 1);
        let value = self.thread(h).map(|thread| thread.stack[thread.top]);
        Ok(value.map_or(Value::Nil, Value::from))
    }

    /// Stores in any place of the stack, also at or above top.
    pub fn thread_set(&mut self, h: ThreadRef, i: u32, v: Value) -> Result<(), Refusal> {
        let i = i as usize;
        ensure(
            self.thread(h).is_none_or(|thread| i < thread.stack.len()),
            RANGE,
        )?;
        self.need(h)?;
        self.need_sound(&[v])?;
        self.change_thread(h, |thread| thread.stack[i] = v.val());
        Ok(())
    }

    /// Raising fills with nil.
    pub fn thread_set_top(&mut self, h: ThreadRef, top: u32) -> Result<(), Refusal> {
        let top = top as usize;
        ensure(
            self.thread(h)
                .is_none_or(|thread| top <= thread.stack.len()),
            RANGE,
        )?;
        self.need(h)?;
        self.change_thread(h, |thread| raise(&mut thread.stack, &mut thread.top, top));
        Ok(())
    }

    pub fn thread_open_push(&mut self, h: ThreadRef, u: UpvalRef) -> Result<(), Refusal> {
        let room = |thread: &LuaThread| thread.open_upvalues.len() < sizes::THREAD_LIST;
        ensure(self.thread(h).is_none_or(room), RANGE)?;
        self.need(h)?;
        self.need(u)?;
        self.change_thread(h, |thread| thread.open_upvalues.push(u.gc()));
        Ok(())
    }

    /// Keeps the first `count` open upvalues.
    pub fn thread_open_cut(&mut self, h: ThreadRef, count: u32) -> Result<(), Refusal> {
        let count = count as usize;
        let within = |thread: &LuaThread| count <= thread.open_upvalues.len();
        ensure(self.thread(h).is_none_or(within), RANGE)?;
        self.need(h)?;
        self.change_thread(h, |thread| thread.open_upvalues.truncate(count));
        Ok(())
    }

    pub fn thread_suspended_push(&mut self, h: ThreadRef, u: UpvalRef) -> Result<(), Refusal> {
        let room = |thread: &LuaThread| thread.suspended_upvals.len() < sizes::THREAD_LIST;
        ensure(self.thread(h).is_none_or(room), RANGE)?;
        self.need(h)?;
        self.need(u)?;
        self.change_thread(h, |thread| thread.suspended_upvals.push((u.gc(), 0)));
        Ok(())
    }

    /// Keeps the first `count` suspended upvalues.
    pub fn thread_suspended_cut(&mut self, h: ThreadRef, count: u32) -> Result<(), Refusal> {
        let count = count as usize;
        let within = |thread: &LuaThread| count <= thread.suspended_upvals.len();
        ensure(self.thread(h).is_none_or(within), RANGE)?;
        self.need(h)?;
        self.change_thread(h, |thread| thread.suspended_upvals.truncate(count));
        Ok(())
    }

    pub fn thread_set_global(&mut self, h: ThreadRef, t: TableRef) -> Result<(), Refusal> {
        self.need(h)?;
        self.need(t)?;
        self.change_thread(h, |thread| thread.global = t.gc());
        Ok(())
    }

    /// Sets the error value, which no traversal follows.
    pub fn thread_set_error(&mut self, h: ThreadRef, v: Value) -> Result<(), Refusal> {
        self.need(h)?;
        self.need_sound(&[v])?;
        self.change_thread(h, |thread| thread.error_object = error_of(v));
        Ok(())
    }

    /// Sets the hook function, with the forward barrier.
    pub fn thread_set_hook(&mut self, h: ThreadRef, v: Value) -> Result<(), Refusal> {
        self.need(h)?;
        self.need_sound(&[v])?;
        self.change_thread(h, |thread| thread.hook.hook_func = v.val());
        let colour = self.state.gc.threads.color(h.gc());
        self.forward(colour, v.val());
        Ok(())
    }

    fn thread(&self, h: ThreadRef) -> Option<&LuaThread> {
        self.state.gc.threads.get(h.gc())
    }

    fn change_thread(&mut self, h: ThreadRef, change: impl FnOnce(&mut LuaThread)) {
        if let Some(thread) = self.state.gc.threads.get_mut(h.gc()) {
            change(thread);
        }
    }
}

/// The source has "no error" where the heap has nil.
pub(super) fn error_of(v: Value) -> Option<Val> {
    (v != Value::Nil).then(|| v.val())
}

/// Moves a top; places newly below it become nil.
pub(super) fn raise(stack: &mut [Val], top: &mut usize, new: usize) {
    for place in stack.iter_mut().take(new).skip(*top) {
        *place = Val::Nil;
    }
    *top = new;
}
