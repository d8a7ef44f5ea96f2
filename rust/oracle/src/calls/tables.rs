//! Storing in tables. Nodes are written by place: the source's own store would move keys.

use crate::answer::{RANGE, Refusal, ensure};
use crate::heap::Oracle;
use crate::refs::TableRef;
use crate::value::Value;
use crate::vm::metatable::TMS;
use crate::vm::table::Table;
use crate::vm::value::Val;

impl Oracle {
    /// Stores in array place `i`, counted from 0.
    pub fn table_set(&mut self, t: TableRef, i: u32, v: Value) -> Result<(), Refusal> {
        let i = i as usize;
        let outside = |table: &Table| i >= table.array_len();
        ensure(!self.table(t).is_some_and(outside), RANGE)?;
        self.need(t)?;
        self.need_sound(&[v])?;
        if let Some(table) = self.state.gc.tables.get_mut(t.gc()) {
            table.put_array(i, v.val());
        }
        self.state.gc.barrier_back(t.gc());
        Ok(())
    }

    /// Stores key and value in node `j`, counted from 0; nil for both empties it.
    pub fn table_set_node(
        &mut self,
        t: TableRef,
        j: u32,
        k: Value,
        v: Value,
    ) -> Result<(), Refusal> {
        let keyless = k == Value::Nil && v != Value::Nil;
        ensure(!keyless && !k.is_nan(), RANGE)?;
        let unfit = |table: &Table| j >= table.hash_node_count() || holds_elsewhere(table, j, k);
        ensure(!self.table(t).is_some_and(unfit), RANGE)?;
        self.need(t)?;
        self.need_sound(&[k, v])?;
        if let Some(table) = self.state.gc.tables.get_mut(t.gc()) {
            table.put_node(j as usize, k.val(), v.val());
        }
        self.link(t);
        self.state.gc.barrier_back(t.gc());
        Ok(())
    }

    /// Gives the table a metatable or takes it away.
    pub fn table_set_meta(&mut self, t: TableRef, meta: Option<TableRef>) -> Result<(), Refusal> {
        self.need(t)?;
        self.need_maybe(meta)?;
        if let Some(table) = self.state.gc.tables.get_mut(t.gc()) {
            table.set_metatable(meta.map(TableRef::gc));
        }
        self.state.gc.barrier_back(t.gc());
        Ok(())
    }

    pub(crate) fn table(&self, t: TableRef) -> Option<&Table> {
        self.state.gc.tables.get(t.gc())
    }

    /// Links the nodes so that the source's lookup of either name, which starts at the name's
    /// main position, comes to the node that holds it. Keys differ, so there is at most one.
    /// The collector looks up no other key, so chains that turn back after both are harmless.
    fn link(&mut self, t: TableRef) {
        let gc = &mut self.state.gc;
        let names = [gc.tm_name(TMS::Mode), gc.tm_name(TMS::Gc)];
        let Some(table) = gc.tables.get_mut(t.gc()) else {
            return;
        };
        let count = table.hash_node_count();
        (0..count).for_each(|j| table.put_next(j as usize, None));
        for name in names.into_iter().flatten().map(Val::Str) {
            let start = table.main_position(&name, &gc.string_arena);
            if let Some(place) = (0..count).find(|j| key(table, *j) == name) {
                join(table, start, place);
            }
        }
    }
}

fn key(table: &Table, j: u32) -> Val {
    table.query_node(j).map_or(Val::Nil, |(key, _, _)| key)
}

/// Does a node other than `j` hold this key? The source's equality: 0 equals -0.
fn holds_elsewhere(table: &Table, j: u32, k: Value) -> bool {
    let other = |n: u32| n != j && key(table, n) == k.val();
    k != Value::Nil && (0..table.hash_node_count()).any(other)
}

/// Makes the chain from `start` reach `place`: from its end, unless it passes there already.
fn join(table: &mut Table, start: u32, place: u32) {
    let mut at = start;
    while at != place {
        match table.query_node(at).and_then(|(_, _, next)| next) {
            Some(next) => at = next,
            None => return table.put_next(at as usize, Some(place)),
        }
    }
}
