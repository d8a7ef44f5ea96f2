//! Commands that make objects.

use super::{Generator, Maker};
use crate::command::Command;
use crate::heap::Oracle;

/// Strings that matter as modes, and others.
const MODES: &[&str] = &[
    "k", "v", "kv", "vk", "", "x", "__mode", "__gc", "weak", "ok",
];

pub(super) const MENU: &[(u32, Maker)] = &[
    (5, string),
    (4, mode_string),
    (8, table),
    (2, proto),
    (4, lua_closure),
    (4, rust_closure),
    (2, open_upvalue),
    (3, closed_upvalue),
    (10, userdata),
    (3, thread),
];

/// What runs of objects are made of.
pub(super) const BURSTS: &[Maker] = &[
    string,
    table,
    rust_closure,
    closed_upvalue,
    userdata,
    thread,
];

fn string(g: &mut Generator, _: &Oracle) -> Command {
    g.strings = g.strings.wrapping_add(1);
    let mut bytes = format!("s{}", g.strings).into_bytes();
    if g.random.percent(4) {
        bytes.resize(60 + g.random.below(8) as usize, 0x80);
    } else if g.random.percent(15) {
        bytes = format!("s{}", g.random.below(g.strings)).into_bytes();
    }
    Command::MakeString { bytes }
}

fn mode_string(g: &mut Generator, _: &Oracle) -> Command {
    let bytes = g.random.pick(MODES).unwrap_or("").as_bytes().to_vec();
    Command::MakeString { bytes }
}

fn table(g: &mut Generator, _: &Oracle) -> Command {
    let nodes = match g.random.below(50) {
        0 => 3,
        1 => 128,
        2..8 => 0,
        n => 1 << (n % 4),
    };
    let array = match g.random.below(50) {
        0 => 65,
        1 => 64,
        n => n % 5,
    };
    Command::MakeTable { array, nodes }
}

fn proto(g: &mut Generator, heap: &Oracle) -> Command {
    let most = if g.random.percent(4) { 18 } else { 3 };
    let constants = g.values(heap, most);
    let used = heap.kept.protos.len();
    let nested = (0..g.random.below(3)).map(|_| g.index(used)).collect();
    Command::MakeProto { constants, nested }
}

fn lua_closure(g: &mut Generator, heap: &Oracle) -> Command {
    let proto = g.index(heap.kept.protos.len());
    let env = g.table(heap);
    let bound = if g.random.percent(3) { 19 } else { 4 };
    let count = g.random.below(bound);
    let upvalues = (0..count).map(|_| g.upvalue(heap)).collect();
    Command::MakeLuaClosure {
        proto,
        env,
        upvalues,
    }
}

fn rust_closure(g: &mut Generator, heap: &Oracle) -> Command {
    let env = g.maybe_table(heap);
    let most = if g.random.percent(3) { 18 } else { 3 };
    let values = g.values(heap, most);
    Command::MakeRustClosure { env, values }
}

fn open_upvalue(_: &mut Generator, _: &Oracle) -> Command {
    Command::MakeOpenUpvalue {}
}

fn closed_upvalue(g: &mut Generator, heap: &Oracle) -> Command {
    let v = g.value(heap);
    Command::MakeClosedUpvalue { v }
}

fn userdata(_: &mut Generator, _: &Oracle) -> Command {
    Command::MakeUserdata {}
}

fn thread(g: &mut Generator, heap: &Oracle) -> Command {
    let global = g.table(heap);
    let stack = match g.random.below(40) {
        0 => 65,
        1 => 64,
        n => n % 6,
    };
    Command::MakeThread { global, stack }
}
