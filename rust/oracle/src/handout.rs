//! Handing a finalizer out in the middle of a collector call.
//!
//! The source calls the method from deep within its step. That call lands in [`hand`], which
//! lets the driver go on with other commands on the same heap until it gives a finish; only then
//! does the source go on. The glue's own part of the heap is not reachable from there, so for
//! the time of a collector call it lies on a desk of the thread.

use crate::driver::Served;
use crate::error::runtime_error;
use crate::heap::{Kept, Oracle};
use crate::refs::UdRef;
use crate::value::Value;
use crate::vm::state::LuaState;
use crate::vm::value::Val;
use crate::{LuaError, LuaResult};
use std::cell::RefCell;
use std::mem;

thread_local! {
    static DESK: RefCell<Option<Kept>> = const { RefCell::new(None) };
}

/// What a hand-out of the source would overwrite: it pushes method and userdata on the main
/// stack, over popped values that must stay, and makes a full stack longer.
#[derive(Default)]
pub(crate) struct Above {
    length: usize,
    values: [Option<Val>; 2],
}

impl Above {
    fn of(state: &LuaState) -> Self {
        let at = |i: usize| state.stack.get(i).copied();
        Self {
            length: state.stack.len(),
            values: [at(state.top), at(state.top.saturating_add(1))],
        }
    }

    /// Undoes the two pushes that began at `func`.
    fn restore(&self, state: &mut LuaState, func: usize) {
        state.stack.truncate(self.length);
        state.top = func;
        for (place, value) in state.stack.iter_mut().skip(func).zip(self.values) {
            if let Some(value) = value {
                *place = value;
            }
        }
    }
}

/// How a collector call ended.
pub(crate) enum Fault {
    /// A finalizer failed.
    Finalizer,
    /// The total is above the limit.
    Limit,
}

/// Makes a collector call of the source, with the glue's part on the desk for hand-outs.
pub(crate) fn collect<R>(
    oracle: &mut Oracle,
    work: impl FnOnce(&mut LuaState) -> LuaResult<R>,
) -> Result<R, Fault> {
    let mut kept = mem::take(&mut oracle.kept);
    kept.above = Above::of(&oracle.state);
    DESK.set(Some(kept));
    let result = work(&mut oracle.state);
    oracle.kept = DESK.take().unwrap_or_default();
    result.map_err(|error| match error {
        LuaError::Memory => Fault::Limit,
        _ => {
            // After a failure the source resets both to what they were before the call; in our
            // domain what was changed while the finalizer was out stays.
            (oracle.state.top, oracle.state.ci) = oracle.kept.left;
            Fault::Finalizer
        }
    })
}

/// The source calls a finalizer: its method and userdata stand at `func` of the main stack.
pub(crate) fn hand(state: &mut LuaState, func: usize) -> LuaResult<()> {
    let Some(mut kept) = DESK.take() else {
        // A bare step: nobody is asked, and the two values are popped as after any call.
        state.top = func;
        return Ok(());
    };
    let (method, given) = (
        state.stack_get(func),
        state.stack_get(func.saturating_add(1)),
    );
    kept.above.restore(state, func);
    if let Val::Userdata(userdata) = given {
        kept.out = Some((UdRef::from(userdata), Value::from(method)));
    }
    // Whatever was interrupted, no collection may nest: the source's own flag says so.
    let running = mem::replace(&mut state.gc.gc_state.gc_running, true);
    let mut oracle = Oracle {
        state: mem::take(state),
        kept,
    };
    let served = oracle.serve_finalizer();
    let Oracle {
        state: back,
        mut kept,
    } = oracle;
    *state = back;
    state.gc.gc_state.gc_running = running;
    kept.out = None;
    kept.ended |= served == Served::Ended;
    kept.above = Above::of(state);
    kept.left = (state.top, state.ci);
    DESK.set(Some(kept));
    match served {
        Served::Succeeded => Ok(()),
        Served::Failed | Served::Ended => Err(runtime_error("the finalizer failed")),
    }
}
