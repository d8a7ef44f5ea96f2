//! The main stack, its open list, frames, error value and hook.

use super::threads::{error_of, raise};
use crate::answer::{RANGE, Refusal, UNFIT, ensure};
use crate::heap::Oracle;
use crate::refs::UpvalRef;
use crate::sizes;
use crate::value::Value;

impl Oracle {
    pub fn push(&mut self, v: Value) -> Result<(), Refusal> {
        ensure(self.state.top < self.state.stack.len(), RANGE)?;
        self.need_sound(&[v])?;
        self.state.push(v.val());
        Ok(())
    }

    /// Lowers the top by one and answers the value there, which stays.
    pub fn pop(&mut self) -> Result<Value, Refusal> {
        ensure(self.state.top > 0, UNFIT)?;
        Ok(self.state.pop().into())
    }

    /// Stores in any place of the stack, also at or above top.
    pub fn stack_set(&mut self, i: u32, v: Value) -> Result<(), Refusal> {
        ensure((i as usize) < self.state.stack.len(), RANGE)?;
        self.need_sound(&[v])?;
        self.state.stack_set(i as usize, v.val());
        Ok(())
    }

    /// Raising fills with nil.
    pub fn set_top(&mut self, top: u32) -> Result<(), Refusal> {
        ensure(top as usize <= self.state.stack.len(), RANGE)?;
        raise(&mut self.state.stack, &mut self.state.top, top as usize);
        Ok(())
    }

    pub fn open_push(&mut self, u: UpvalRef) -> Result<(), Refusal> {
        let count = self.state.open_upvalues.len();
        ensure(count < self.sizes().open as usize, RANGE)?;
        self.need(u)?;
        self.state.open_upvalues.push(u.gc());
        Ok(())
    }

    /// Keeps the first `count` open upvalues.
    pub fn open_cut(&mut self, count: u32) -> Result<(), Refusal> {
        ensure(count as usize <= self.state.open_upvalues.len(), RANGE)?;
        self.state.open_upvalues.truncate(count as usize);
        Ok(())
    }

    /// Sets the function index of a frame.
    pub fn set_frame(&mut self, frame: u32, function: u32) -> Result<(), Refusal> {
        let fit = frame < self.sizes().frames && function <= sizes::FUNCTION_INDEX;
        ensure(fit, RANGE)?;
        self.state.call_stack[frame as usize].func = function as usize;
        Ok(())
    }

    pub fn set_ci(&mut self, ci: u32) -> Result<(), Refusal> {
        ensure(ci < self.sizes().frames, RANGE)?;
        self.state.ci = ci as usize;
        Ok(())
    }

    pub fn set_error(&mut self, v: Value) -> Result<(), Refusal> {
        self.need_sound(&[v])?;
        self.state.error_object = error_of(v);
        Ok(())
    }

    /// Sets the hook function; the main thread is visited again, so there is no barrier.
    pub fn set_hook(&mut self, v: Value) -> Result<(), Refusal> {
        self.need_sound(&[v])?;
        self.state.hook.hook_func = v.val();
        Ok(())
    }
}
