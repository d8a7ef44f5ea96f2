//! Commands of the collector, its settings, and reads.

use super::{Generator, Maker};
use crate::command::Command;
use crate::heap::Oracle;

/// Budgets at which something happens.
const BUDGETS: &[i64] = &[i64::MIN, -1, 0, 1, 10, 100, 300, 900, 2000, 5000, i64::MAX];

const PERCENTS: &[u32] = &[0, 1, 50, 100, 200, 200, 200, 400, 1000, u32::MAX];

pub(super) const MENU: &[(u32, Maker)] = &[
    (36, single),
    (26, budgeted),
    (12, auto),
    (9, full),
    (10, check),
    (1, finish),
    (2, set_pause),
    (2, set_stepmul),
    (2, set_limit),
    (1, audit),
    (1, colour),
    (1, record),
    (1, string_bytes),
    (1, table_get),
    (1, table_key),
    (1, table_value),
    (1, thread_get),
    (1, stack_get),
    (1, counters),
    (1, dump),
];

fn single(_: &mut Generator, _: &Oracle) -> Command {
    Command::GcSinglestep {}
}

fn budgeted(g: &mut Generator, _: &Oracle) -> Command {
    let budget = g.random.pick(BUDGETS).unwrap_or(0);
    Command::GcStep { budget }
}

fn auto(_: &mut Generator, _: &Oracle) -> Command {
    Command::GcStepAuto {}
}

fn full(_: &mut Generator, _: &Oracle) -> Command {
    Command::FullGc {}
}

fn check(_: &mut Generator, _: &Oracle) -> Command {
    Command::GcCheck {}
}

fn finish(g: &mut Generator, _: &Oracle) -> Command {
    let ok = g.random.percent(70);
    Command::Finish { ok }
}

fn set_pause(g: &mut Generator, _: &Oracle) -> Command {
    let percent = g.random.pick(PERCENTS).unwrap_or(200);
    Command::SetPause { percent }
}

fn set_stepmul(g: &mut Generator, _: &Oracle) -> Command {
    let percent = g.random.pick(PERCENTS).unwrap_or(200);
    Command::SetStepmul { percent }
}

fn set_limit(g: &mut Generator, heap: &Oracle) -> Command {
    let total = heap.state.gc.gc_state.total_bytes as u64;
    let near = total.saturating_add(u64::from(g.random.below(2000)));
    let limit = match g.random.below(6) {
        0 => Some(0),
        1 => Some(u64::MAX - 1),
        2 => Some(near),
        3 => Some(near.saturating_sub(1000)),
        _ => None,
    };
    Command::SetLimit { limit }
}

fn audit(_: &mut Generator, _: &Oracle) -> Command {
    Command::Audit {}
}

fn colour(g: &mut Generator, heap: &Oracle) -> Command {
    let handle = g.any(heap);
    Command::Colour { handle }
}

fn record(g: &mut Generator, heap: &Oracle) -> Command {
    let handle = g.any(heap);
    Command::Record { handle }
}

fn string_bytes(g: &mut Generator, heap: &Oracle) -> Command {
    let s = g.string(heap);
    Command::StringBytes { s }
}

fn table_get(g: &mut Generator, heap: &Oracle) -> Command {
    let (t, i) = (g.table(heap), g.index(4));
    Command::TableGet { t, i }
}

fn table_key(g: &mut Generator, heap: &Oracle) -> Command {
    let (t, j) = (g.table(heap), g.index(4));
    Command::TableKey { t, j }
}

fn table_value(g: &mut Generator, heap: &Oracle) -> Command {
    let (t, j) = (g.table(heap), g.index(4));
    Command::TableValue { t, j }
}

fn thread_get(g: &mut Generator, heap: &Oracle) -> Command {
    let (h, i) = (g.thread(heap), g.index(4));
    Command::ThreadGet { h, i }
}

fn stack_get(g: &mut Generator, heap: &Oracle) -> Command {
    let i = g.index(heap.state.stack.len());
    Command::StackGet { i }
}

fn counters(_: &mut Generator, _: &Oracle) -> Command {
    Command::Counters {}
}

fn dump(_: &mut Generator, _: &Oracle) -> Command {
    Command::Dump {}
}
