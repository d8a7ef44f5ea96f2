//! What the tests share.

// Each test file has a copy and uses a part of it.
#![allow(dead_code)]

use collector::{Heap, Refusal, Sizes, TableRef, UserdataRef};

/// A new heap with a value at place 0 of the stack, which frame 0 holds for good.
pub fn heap() -> Heap {
    let mut heap = Heap::new(Sizes::default()).expect("sizes within their ranges");
    heap.push(true).expect("room on the stack");
    heap
}

/// A metatable with `__gc`, held by the stack.
pub fn finalizing(heap: &mut Heap) -> Result<TableRef, Refusal> {
    let metatable = heap.make_table(0, 1)?;
    let gc = heap.gc_name()?;
    heap.table_set_node(metatable, 0, gc, true)?;
    heap.push(metatable)?;
    Ok(metatable)
}

/// So many userdata with a finalizer, which nothing holds.
pub fn dropped(heap: &mut Heap, count: usize) -> Result<Vec<UserdataRef>, Refusal> {
    let metatable = finalizing(heap)?;
    let mut made = Vec::new();
    for _ in 0..count {
        let lease = heap.make_userdata()?;
        heap.userdata_set_metatable(lease, metatable)?;
        made.push(lease);
    }
    Ok(made)
}

/// A table that is weak by `mode`, held by the stack.
pub fn weak(heap: &mut Heap, mode: &[u8]) -> Result<TableRef, Refusal> {
    let (metatable, name) = (heap.make_table(0, 1)?, heap.mode_name()?);
    let mode = heap.make_string(mode)?;
    heap.table_set_node(metatable, 0, name, mode)?;
    let table = heap.make_table(4, 4)?;
    heap.table_set_metatable(table, metatable)?;
    heap.push(table)?;
    Ok(table)
}
