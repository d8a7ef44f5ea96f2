//! Commands that change threads and the main thread.

use super::{Generator, Maker};
use crate::command::Command;
use crate::heap::Oracle;
use crate::sizes;

pub(super) const MENU: &[(u32, Maker)] = &[
    (2, thread_push),
    (1, thread_pop),
    (1, thread_set),
    (1, thread_set_top),
    (1, thread_open_push),
    (1, thread_open_cut),
    (1, thread_suspended_push),
    (1, thread_suspended_cut),
    (1, thread_set_global),
    (1, thread_set_error),
    (1, thread_set_hook),
];

pub(super) const MAIN_MENU: &[(u32, Maker)] = &[
    (10, push),
    (5, pop),
    (3, stack_set),
    (2, set_top),
    (2, open_push),
    (1, open_cut),
    (1, set_frame),
    (1, set_ci),
    (1, set_error),
    (1, set_hook),
];

fn thread_push(g: &mut Generator, heap: &Oracle) -> Command {
    let (h, v) = (g.thread(heap), g.value(heap));
    Command::ThreadPush { h, v }
}

fn thread_pop(g: &mut Generator, heap: &Oracle) -> Command {
    let h = g.thread(heap);
    Command::ThreadPop { h }
}

fn thread_set(g: &mut Generator, heap: &Oracle) -> Command {
    let (h, i, v) = (g.thread(heap), g.index(5), g.value(heap));
    Command::ThreadSet { h, i, v }
}

fn thread_set_top(g: &mut Generator, heap: &Oracle) -> Command {
    let (h, top) = (g.thread(heap), g.index(6));
    Command::ThreadSetTop { h, top }
}

fn thread_open_push(g: &mut Generator, heap: &Oracle) -> Command {
    let (h, u) = (g.thread(heap), g.upvalue(heap));
    Command::ThreadOpenPush { h, u }
}

fn thread_open_cut(g: &mut Generator, heap: &Oracle) -> Command {
    let (h, count) = (g.thread(heap), g.index(3));
    Command::ThreadOpenCut { h, count }
}

fn thread_suspended_push(g: &mut Generator, heap: &Oracle) -> Command {
    let (h, u) = (g.thread(heap), g.upvalue(heap));
    Command::ThreadSuspendedPush { h, u }
}

fn thread_suspended_cut(g: &mut Generator, heap: &Oracle) -> Command {
    let (h, count) = (g.thread(heap), g.index(3));
    Command::ThreadSuspendedCut { h, count }
}

fn thread_set_global(g: &mut Generator, heap: &Oracle) -> Command {
    let (h, t) = (g.thread(heap), g.table(heap));
    Command::ThreadSetGlobal { h, t }
}

fn thread_set_error(g: &mut Generator, heap: &Oracle) -> Command {
    let (h, v) = (g.thread(heap), g.value(heap));
    Command::ThreadSetError { h, v }
}

fn thread_set_hook(g: &mut Generator, heap: &Oracle) -> Command {
    let (h, v) = (g.thread(heap), g.value(heap));
    Command::ThreadSetHook { h, v }
}

fn push(g: &mut Generator, heap: &Oracle) -> Command {
    let v = g.value(heap);
    Command::Push { v }
}

fn pop(_: &mut Generator, _: &Oracle) -> Command {
    Command::Pop {}
}

fn stack_set(g: &mut Generator, heap: &Oracle) -> Command {
    let (i, v) = (g.index(heap.state.stack.len()), g.value(heap));
    Command::StackSet { i, v }
}

/// Near the top as it is, so that the stack neither empties nor fills at once.
fn set_top(g: &mut Generator, heap: &Oracle) -> Command {
    let near = (heap.state.top as u32).saturating_add(g.random.below(7));
    let top = match g.random.below(20) {
        0 => g.index(heap.state.stack.len()),
        _ => near.saturating_sub(3),
    };
    Command::SetTop { top }
}

fn open_push(g: &mut Generator, heap: &Oracle) -> Command {
    let u = g.upvalue(heap);
    Command::OpenPush { u }
}

fn open_cut(g: &mut Generator, heap: &Oracle) -> Command {
    let count = g.index(heap.state.open_upvalues.len().saturating_add(1));
    Command::OpenCut { count }
}

fn set_frame(g: &mut Generator, heap: &Oracle) -> Command {
    let frame = g.index(heap.sizes().frames as usize);
    let function = match g.random.below(8) {
        0 => g.index(sizes::FUNCTION_INDEX as usize),
        _ => g.index(heap.state.stack.len()),
    };
    Command::SetFrame { frame, function }
}

fn set_ci(g: &mut Generator, heap: &Oracle) -> Command {
    let ci = g.index(heap.sizes().frames as usize);
    Command::SetCi { ci }
}

fn set_error(g: &mut Generator, heap: &Oracle) -> Command {
    let v = g.value(heap);
    Command::SetError { v }
}

fn set_hook(g: &mut Generator, heap: &Oracle) -> Command {
    let v = g.value(heap);
    Command::SetHook { v }
}
