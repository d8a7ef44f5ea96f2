//! Calls that do little: stack, settings, stores, reads.

use crate::batch::{BATCH, batched, batches, chained, chained_table, roomy};
use crate::run::{Run, both};
use crate::side::{Ours, Side, global};
use heap::ask::{Counter, Table};
use oracle::{TableRef, UpvalRef, Value};
use std::hint::black_box;

fn push<S: Side>(side: &mut S) -> f64 {
    let v = Value::Table(global());
    batches(
        side,
        |side| side.set_top(0),
        |side, _| side.push(black_box(v)),
    )
}

fn pop<S: Side>(side: &mut S) -> f64 {
    let full = |side: &mut S| side.set_top(BATCH);
    batches(side, full, |side, _| _ = black_box(side.pop()))
}

fn set_pause<S: Side>(side: &mut S) -> f64 {
    batched(side, |side, i| side.set_pause(black_box(200 + i % 2)))
}

/// A store in a white table.
fn table_set<S: Side>(side: &mut S) -> f64 {
    let v = Value::Table(global());
    batched(side, |side, i| {
        side.table_set(global(), i % 8, black_box(v))
    })
}

/// Stores in black tables: each is painted gray and listed.
fn table_set_back<S: Side>(side: &mut S) -> f64 {
    let black = |side: &mut S| {
        side.full();
        // The roots, then every table and the main thread: all are black, the atomic step is next.
        (0..BATCH + 4).for_each(|_| side.single());
    };
    black(side);
    let before = side.grayagain();
    let time = batches(side, black, |side, i| {
        side.table_set(chained_table(i), 7, black_box(Value::Nil));
    });
    assert_eq!(side.grayagain(), before + BATCH, "all were black");
    time
}

/// A heap with one closed upvalue.
fn with_upvalue<S: Side>() -> (S, UpvalRef) {
    let mut side: S = roomy();
    let made = side.make_closed_upvalue(Value::Nil);
    (side, made)
}

fn upvalue_set<S: Side>((side, u): &mut (S, UpvalRef)) -> f64 {
    let v = Value::Table(global());
    batched(side, |side, _| side.upvalue_set(*u, black_box(v)))
}

fn reads(run: &Run) {
    let mut ours: Ours = roomy();
    let (counter, mut out) = (Counter::Total as u32, [0; 4]);
    run.alone("read a counter", "the tracked total", || {
        batched(&mut ours, |ours, _| {
            let heap = &ours.calls.heap;
            _ = black_box(heap.read_counter(black_box(counter), &mut out));
        })
    });
    let field = Table::Array as u32;
    run.alone(
        "read a field of a table",
        "how many array places the global table has",
        || {
            batched(&mut ours, |ours, _| {
                let heap = &ours.calls.heap;
                _ = black_box(heap.read_table(black_box(0), 0, field, 0, &mut out));
            })
        },
    );
}

pub fn rows(run: &Run) {
    let (what, name) = ("a table onto the main stack", "push");
    both!(run, name, what, S => roomy::<S>(), push);
    both!(run, "pop", "from the main stack", S => roomy::<S>(), pop);
    both!(run, "set_pause", "the pause takes another value", S => roomy::<S>(), set_pause);
    let what = "a table stored in an array place of a white table, at Pause";
    both!(run, "table_set without barrier", what, S => roomy::<S>(), table_set);
    let what = "nil stored in a black table while propagating: it turns gray and is listed again";
    both!(run, "table_set with barrier", what, S => chained::<S>(), table_set_back);
    let what = "a table stored in a closed upvalue, at Pause";
    both!(run, "upvalue_set", what, S => with_upvalue::<S>(), upvalue_set);
    reads(run);
}

/// A heap with a table of so many nodes, each with a number as key.
fn noded<S: Side>(nodes: u32) -> (S, TableRef) {
    let mut side: S = roomy();
    let t = side.make_table(0, nodes);
    for j in 0..nodes {
        side.table_set_node(t, j, Value::number(j.into()), Value::Bool(true));
    }
    (side, t)
}

/// Stores of key and value, each node again and again with the key that it has.
fn table_set_node<S: Side>((side, t): &mut (S, TableRef), nodes: u32) -> f64 {
    let keys: Vec<Value> = (0..nodes).map(|j| Value::number(j.into())).collect();
    batched(side, |side, i| {
        let j = i % nodes;
        side.table_set_node(*t, j, black_box(keys[j as usize]), Value::Bool(true));
    })
}

pub fn nodes(run: &Run) {
    let what = "key and value stored in a node; the key is held to those of all other nodes";
    for nodes in [8, 64] {
        let name = format!("table_set_node, {nodes} nodes");
        both!(run, &name, what, S => noded::<S>(nodes), |heap| table_set_node(heap, nodes));
    }
}
