//! Reading the source's state into a snapshot.

use super::{
    ClosureRecord, Colour, Counters, MainRecord, Phase, ProtoRecord, Slot, Slots, Snapshot,
    TableRecord, ThreadRecord, UpvalRecord, UserdataRecord, WorkItem,
};
use crate::heap::Oracle;
use crate::refs::TableRef;
use crate::value::Value;
use crate::vm::closure::{Closure, Upvalue, UpvalueState};
use crate::vm::gc::Color;
use crate::vm::gc::arena::{Arena, GcRef};
use crate::vm::gc::collector::{GcPhase, GrayItem};
use crate::vm::state::LuaThread;
use crate::vm::table::Table;
use crate::vm::value::{Userdata, Val};

impl From<Color> for Colour {
    fn from(colour: Color) -> Self {
        match colour {
            Color::White0 => Self::White0,
            Color::White1 => Self::White1,
            Color::Gray => Self::Gray,
            Color::Black => Self::Black,
        }
    }
}

/// The source's colour bytes; any other is free.
fn colour(byte: u8) -> Colour {
    match byte {
        1 => Colour::White0,
        2 => Colour::White1,
        3 => Colour::Gray,
        4 => Colour::Black,
        _ => Colour::Free,
    }
}

impl From<&GrayItem> for WorkItem {
    fn from(item: &GrayItem) -> Self {
        match item {
            GrayItem::Table(r) => Self::Table((*r).into()),
            GrayItem::Closure(r) => Self::Closure((*r).into()),
            GrayItem::Thread(r) => Self::Thread((*r).into()),
            GrayItem::MainThread => Self::Main,
        }
    }
}

impl From<GcPhase> for Phase {
    fn from(phase: GcPhase) -> Self {
        match phase {
            GcPhase::Pause => Self::Pause,
            GcPhase::Propagate => Self::Propagate,
            GcPhase::SweepString => Self::SweepString,
            GcPhase::Sweep => Self::Sweep,
            GcPhase::Finalize => Self::Finalize,
        }
    }
}

fn slots<T, R>(arena: &Arena<T>, record: impl for<'a> Fn(&'a T) -> R) -> Slots<R> {
    let one = |(generation, byte, held): (u32, u8, Option<&T>)| Slot {
        generation,
        colour: colour(byte),
        record: held.map(&record),
    };
    let list = (0..arena.capacity()).filter_map(|i| arena.slot(i as usize).map(one));
    Slots {
        list: list.collect(),
        occupied: arena.len(),
        chain: arena.chain(),
    }
}

fn values(vals: &[Val]) -> Vec<Value> {
    vals.iter().map(|v| (*v).into()).collect()
}

fn refs<T, R: From<GcRef<T>>>(list: &[GcRef<T>]) -> Vec<R> {
    list.iter().map(|r| (*r).into()).collect()
}

fn error(held: Option<Val>) -> Value {
    held.map_or(Value::Nil, Value::from)
}

impl From<&Table> for TableRecord {
    fn from(table: &Table) -> Self {
        let node = |j| table.query_node(j).map(|(k, v, _)| (k.into(), v.into()));
        Self {
            metatable: table.metatable().map(TableRef::from),
            array: values(table.array_slice()),
            nodes: (0..table.hash_node_count()).filter_map(node).collect(),
        }
    }
}

impl From<&Upvalue> for UpvalRecord {
    fn from(upvalue: &Upvalue) -> Self {
        match upvalue.state {
            UpvalueState::Open { .. } => Self::Open,
            UpvalueState::Closed { value } => Self::Closed(value.into()),
        }
    }
}

impl From<&Userdata> for UserdataRecord {
    fn from(userdata: &Userdata) -> Self {
        Self {
            metatable: userdata.metatable().map(TableRef::from),
            env: userdata.env().map(TableRef::from),
            number: userdata.alloc_seq(),
            finalized: userdata.finalized(),
        }
    }
}

impl From<&LuaThread> for ThreadRecord {
    fn from(thread: &LuaThread) -> Self {
        let suspended: Vec<_> = thread.suspended_upvals.iter().map(|(u, _)| *u).collect();
        Self {
            global: thread.global.into(),
            hook: thread.hook.hook_func.into(),
            error: error(thread.error_object),
            top: thread.top,
            stack: values(&thread.stack),
            open: refs(&thread.open_upvalues),
            suspended: refs(&suspended),
        }
    }
}

impl Oracle {
    /// Everything in the heap.
    pub fn snapshot(&self) -> Snapshot {
        let gc = &self.state.gc;
        let lists = &gc.gc_state;
        Snapshot {
            sizes: self.sizes(),
            strings: slots(&gc.string_arena, |s| s.data().to_vec()),
            tables: slots(&gc.tables, |t| TableRecord::from(t)),
            closures: slots(&gc.closures, |c| self.closure_record(c)),
            upvalues: slots(&gc.upvalues, |u| UpvalRecord::from(u)),
            userdata: slots(&gc.userdata, |d| UserdataRecord::from(d)),
            threads: slots(&gc.threads, |h| ThreadRecord::from(h)),
            prototypes: self.proto_records(),
            gray: lists.gray.iter().map(WorkItem::from).collect(),
            grayagain: lists.grayagain.iter().map(WorkItem::from).collect(),
            weak: refs(&lists.weak_tables),
            queue: refs(&lists.tmudata),
            counters: self.counters(),
            main: self.main_record(),
            out: self.out(),
        }
    }

    /// All counters and settings.
    #[must_use]
    pub fn counters(&self) -> Counters {
        let gc = &self.state.gc.gc_state;
        Counters {
            phase: gc.phase.into(),
            white: self.state.gc.current_white.into(),
            cursor: (gc.sweep_cursor.arena_index, gc.sweep_cursor.slot_position),
            total: gc.total_bytes as u64,
            peak: gc.max_bytes as u64,
            limit: self.limit(),
            estimate: gc.estimate as u64,
            threshold: gc.gc_threshold as u64,
            debt: gc.gc_debt,
            number: gc.ud_alloc_seq,
            pause: gc.gc_pause,
            stepmul: gc.gc_stepmul,
        }
    }

    pub(crate) fn closure_record(&self, closure: &Closure) -> ClosureRecord {
        match closure {
            Closure::Lua(lua) => ClosureRecord::Lua {
                // Every closure was made from a prototype of this heap.
                proto: self.proto_number(&lua.proto).unwrap_or(u32::MAX),
                env: lua.env.into(),
                upvalues: refs(&lua.upvalues),
            },
            Closure::Rust(rust) => ClosureRecord::Rust {
                env: rust.env.map(TableRef::from),
                values: values(&rust.upvalues),
            },
        }
    }

    fn proto_records(&self) -> Vec<ProtoRecord> {
        let both = self.kept.protos.iter().zip(&self.kept.nested);
        both.map(|(proto, has_parent)| ProtoRecord {
            constants: values(&proto.constants),
            nested: proto
                .protos
                .iter()
                .filter_map(|p| self.proto_number(p))
                .collect(),
            has_parent: *has_parent,
        })
        .collect()
    }

    fn main_record(&self) -> MainRecord {
        let state = &self.state;
        let metatables = state.gc.type_metatables.iter();
        MainRecord {
            top: state.top,
            stack: values(&state.stack),
            open: refs(&state.open_upvalues),
            ci: state.ci,
            frames: state.call_stack.iter().map(|frame| frame.func).collect(),
            error: error(state.error_object),
            hook: state.hook.hook_func.into(),
            global: state.global.into(),
            registry: state.registry.into(),
            type_metatables: metatables.map(|t| t.map(TableRef::from)).collect(),
        }
    }
}
