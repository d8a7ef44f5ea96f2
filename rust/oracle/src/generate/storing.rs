//! Commands that change tables, upvalues, userdata and type metatables.

use super::{Generator, Maker};
use crate::command::Command;
use crate::heap::Oracle;
use crate::refs::{StrRef, TableRef, UdRef};
use crate::sizes;
use crate::value::Value;
use crate::vm::table::Table;
use crate::vm::value::Val;

const MODE: StrRef = StrRef::new(0, 0);
const GC: StrRef = StrRef::new(1, 0);

pub(super) const MENU: &[(u32, Maker)] = &[
    (10, table_set),
    (8, table_set_node),
    (6, weak_mode),
    (10, weak_set),
    (8, gc_method),
    (9, table_set_meta),
    (2, upvalue_close),
    (3, upvalue_set),
    (16, ud_set_meta),
    (7, ud_set_env),
    (2, set_type_meta),
];

/// Mostly any table, sometimes one of the two that are always reached.
fn holder(g: &mut Generator, heap: &Oracle) -> TableRef {
    match g.random.below(3) {
        0 => TableRef::new(g.random.below(2), 0),
        _ => g.table(heap),
    }
}

fn table_set(g: &mut Generator, heap: &Oracle) -> Command {
    let t = holder(g, heap);
    let i = g.index(heap.table(t).map_or(4, |table| table.array_len()));
    let v = g.link(heap);
    Command::TableSet { t, i, v }
}

fn table_set_node(g: &mut Generator, heap: &Oracle) -> Command {
    let t = holder(g, heap);
    let j = g.index(
        heap.table(t)
            .map_or(4, |table| table.hash_node_count() as usize),
    );
    let (k, v) = match g.random.below(10) {
        0 => (Value::Nil, Value::Nil),
        _ => (g.link(heap), g.link(heap)),
    };
    Command::TableSetNode { t, j, k, v }
}

/// A node for this name: the one that has it, else any.
fn named_node(g: &mut Generator, heap: &Oracle, name: StrRef, v: Value) -> Command {
    let t = holder(g, heap);
    let count = heap.table(t).map_or(0, |table| table.hash_node_count());
    let has = |j: &u32| {
        let node = heap.table(t).and_then(|table| table.hash_node_kv(*j));
        node.is_some_and(|(key, _)| key == Val::Str(name.gc()))
    };
    let j = (0..count)
        .find(has)
        .unwrap_or_else(|| g.index(count as usize));
    let k = Value::Str(name);
    Command::TableSetNode { t, j, k, v }
}

/// Mostly a string that makes a table weak.
fn weak_mode(g: &mut Generator, heap: &Oracle) -> Command {
    let all = heap.state.gc.string_arena.iter();
    let weak = |bytes: &[u8]| bytes.contains(&b'k') || bytes.contains(&b'v');
    let fit: Vec<StrRef> = all
        .filter(|(_, record, _)| weak(record.data()))
        .map(|(s, _, _)| s.into())
        .collect();
    let mode = match g.random.pick(&fit) {
        Some(s) if g.random.percent(70) => Value::Str(s),
        _ => g.value(heap),
    };
    named_node(g, heap, MODE, mode)
}

/// A store in a table whose metatable has a mode.
fn weak_set(g: &mut Generator, heap: &Oracle) -> Command {
    let has_mode = |t: TableRef| heap.table(t).is_some_and(|table| holds(table, MODE));
    let all = heap.state.gc.tables.iter();
    let weak: Vec<TableRef> = all
        .filter(|(_, table, _)| table.metatable().is_some_and(|m| has_mode(m.into())))
        .map(|(t, _, _)| t.into())
        .collect();
    let Some(t) = g.random.pick(&weak) else {
        return table_set(g, heap);
    };
    let places = heap.table(t).map_or(0, |table| table.array_len());
    let nodes = heap.table(t).map_or(0, |table| table.hash_node_count());
    let (k, v) = (g.link(heap), g.link(heap));
    if places > 0 && (nodes == 0 || g.random.percent(50)) {
        let i = g.index(places);
        return Command::TableSet { t, i, v };
    }
    let j = g.index(nodes as usize);
    Command::TableSetNode { t, j, k, v }
}

fn gc_method(g: &mut Generator, heap: &Oracle) -> Command {
    let method = match g.random.below(4) {
        0 => Value::Function(g.closure(heap)),
        1 => Value::Bool(true),
        _ => g.value(heap),
    };
    named_node(g, heap, GC, method)
}

fn holds(table: &Table, name: StrRef) -> bool {
    let entries = table.hash_entries();
    entries.iter().any(|(key, _)| *key == Val::Str(name.gc()))
}

/// A table that holds one of the names, so that giving it as metatable matters.
fn meta(g: &mut Generator, heap: &Oracle, name: StrRef) -> Option<TableRef> {
    let all = heap.state.gc.tables.iter();
    let fit: Vec<TableRef> = all
        .filter(|(_, table, _)| holds(table, name))
        .map(|(t, _, _)| t.into())
        .collect();
    match g.random.pick(&fit) {
        Some(table) if g.random.percent(75) => Some(table),
        _ => g.maybe_table(heap),
    }
}

fn table_set_meta(g: &mut Generator, heap: &Oracle) -> Command {
    let t = holder(g, heap);
    let meta = meta(g, heap, MODE);
    Command::TableSetMeta { t, meta }
}

/// Mostly a userdata that has no metatable yet: once finalized, one matters no more.
fn ud_set_meta(g: &mut Generator, heap: &Oracle) -> Command {
    let all = heap.state.gc.userdata.iter();
    let bare: Vec<UdRef> = all
        .filter(|(_, record, _)| record.metatable().is_none())
        .map(|(d, _, _)| d.into())
        .collect();
    let d = match g.random.pick(&bare) {
        Some(d) if g.random.percent(75) => d,
        _ => g.userdata(heap),
    };
    let meta = meta(g, heap, GC);
    Command::UdSetMeta { d, meta }
}

fn ud_set_env(g: &mut Generator, heap: &Oracle) -> Command {
    let d = g.userdata(heap);
    let env = g.maybe_table(heap);
    Command::UdSetEnv { d, env }
}

fn upvalue_close(g: &mut Generator, heap: &Oracle) -> Command {
    let (u, v) = (g.upvalue(heap), g.value(heap));
    Command::UpvalueClose { u, v }
}

fn upvalue_set(g: &mut Generator, heap: &Oracle) -> Command {
    let (u, v) = (g.upvalue(heap), g.value(heap));
    Command::UpvalueSet { u, v }
}

fn set_type_meta(g: &mut Generator, heap: &Oracle) -> Command {
    let kind = g.index(sizes::TYPE_METATABLES as usize);
    let meta = g.maybe_table(heap);
    Command::SetTypeMeta { kind, meta }
}
