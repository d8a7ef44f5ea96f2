//! Reads of single things; [`Oracle::snapshot`] reads all.

use crate::answer::{RANGE, Refusal, STALE, ensure};
use crate::heap::Oracle;
use crate::refs::{AnyRef, StrRef, TableRef, ThreadRef};
use crate::snapshot::Colour;
use crate::value::Value;
use crate::vm::value::Val;

impl Oracle {
    /// The colour of an object.
    pub fn colour(&mut self, handle: AnyRef) -> Result<Colour, Refusal> {
        self.need(handle)?;
        let gc = &self.state.gc;
        let colour = match handle {
            AnyRef::Str(r) => gc.string_arena.color(r.gc()),
            AnyRef::Table(r) => gc.tables.color(r.gc()),
            AnyRef::Func(r) => gc.closures.color(r.gc()),
            AnyRef::Upval(r) => gc.upvalues.color(r.gc()),
            AnyRef::Ud(r) => gc.userdata.color(r.gc()),
            AnyRef::Thread(r) => gc.threads.color(r.gc()),
        };
        Ok(colour.map_or(Colour::Free, Colour::from))
    }

    /// The record of an object, as a dump writes it.
    pub fn record(&mut self, handle: AnyRef) -> Result<String, Refusal> {
        self.record_text(handle).ok_or(Refusal(STALE))
    }

    pub fn string_bytes(&mut self, s: StrRef) -> Result<Vec<u8>, Refusal> {
        let record = self.state.gc.string_arena.get(s.gc());
        record.map(|r| r.data().to_vec()).ok_or(Refusal(STALE))
    }

    /// Array place `i`.
    pub fn table_get(&mut self, t: TableRef, i: u32) -> Result<Value, Refusal> {
        let table = self.table(t).ok_or(Refusal(STALE))?;
        read(table.array_get(i as usize))
    }

    /// The key of node `j`.
    pub fn table_key(&mut self, t: TableRef, j: u32) -> Result<Value, Refusal> {
        let table = self.table(t).ok_or(Refusal(STALE))?;
        read(table.query_node(j).map(|(key, _, _)| key))
    }

    /// The value of node `j`.
    pub fn table_value(&mut self, t: TableRef, j: u32) -> Result<Value, Refusal> {
        let table = self.table(t).ok_or(Refusal(STALE))?;
        read(table.query_node(j).map(|(_, value, _)| value))
    }

    /// A place of a thread's stack.
    pub fn thread_get(&mut self, h: ThreadRef, i: u32) -> Result<Value, Refusal> {
        let thread = self.state.gc.threads.get(h.gc()).ok_or(Refusal(STALE))?;
        read(thread.stack.get(i as usize).copied())
    }

    /// A place of the main stack.
    pub fn stack_get(&mut self, i: u32) -> Result<Value, Refusal> {
        ensure((i as usize) < self.state.stack.len(), RANGE)?;
        Ok(self.state.stack_get(i as usize).into())
    }

    /// All counters and settings on one line.
    pub fn counters_line(&mut self) -> String {
        self.counters().to_string()
    }
}

fn read(found: Option<Val>) -> Result<Value, Refusal> {
    found.map(Value::from).ok_or(Refusal(RANGE))
}
