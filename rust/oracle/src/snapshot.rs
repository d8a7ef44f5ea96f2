//! The whole heap as plain data, to be compared and printed.

mod read;

use crate::refs::{FuncRef, TableRef, ThreadRef, UdRef, UpvalRef};
use crate::sizes::Sizes;
use crate::value::Value;

/// Everything there is in a heap.
#[derive(Clone, Debug, PartialEq, Eq)]
pub struct Snapshot {
    pub sizes: Sizes,
    pub strings: Slots<Vec<u8>>,
    pub tables: Slots<TableRecord>,
    pub closures: Slots<ClosureRecord>,
    pub upvalues: Slots<UpvalRecord>,
    pub userdata: Slots<UserdataRecord>,
    pub threads: Slots<ThreadRecord>,
    pub prototypes: Vec<ProtoRecord>,
    pub gray: Vec<WorkItem>,
    pub grayagain: Vec<WorkItem>,
    pub weak: Vec<TableRef>,
    pub queue: Vec<UdRef>,
    pub counters: Counters,
    pub main: MainRecord,
    /// The finalizer that is out.
    pub out: Option<(UdRef, Value)>,
}

/// An arena.
#[derive(Clone, Debug, PartialEq, Eq)]
pub struct Slots<R> {
    /// The slots below the fresh index.
    pub list: Vec<Slot<R>>,
    pub occupied: u32,
    /// The free chain from its head.
    pub chain: Vec<u32>,
}

/// A slot; a free one has no record.
#[derive(Clone, Debug, PartialEq, Eq)]
pub struct Slot<R> {
    pub generation: u32,
    pub colour: Colour,
    pub record: Option<R>,
}

#[derive(Clone, Copy, Debug, PartialEq, Eq)]
pub enum Colour {
    Free,
    White0,
    White1,
    Gray,
    Black,
}

#[derive(Clone, Debug, PartialEq, Eq)]
pub struct TableRecord {
    pub metatable: Option<TableRef>,
    pub array: Vec<Value>,
    /// Key and value of each node in node order.
    pub nodes: Vec<(Value, Value)>,
}

#[derive(Clone, Debug, PartialEq, Eq)]
pub enum ClosureRecord {
    Lua {
        proto: u32,
        env: TableRef,
        upvalues: Vec<UpvalRef>,
    },
    Rust {
        env: Option<TableRef>,
        values: Vec<Value>,
    },
}

#[derive(Clone, Copy, Debug, PartialEq, Eq)]
pub enum UpvalRecord {
    Open,
    Closed(Value),
}

#[derive(Clone, Debug, PartialEq, Eq)]
pub struct UserdataRecord {
    pub metatable: Option<TableRef>,
    pub env: Option<TableRef>,
    /// The creation number.
    pub number: u64,
    pub finalized: bool,
}

#[derive(Clone, Debug, PartialEq, Eq)]
pub struct ThreadRecord {
    pub global: TableRef,
    pub hook: Value,
    pub error: Value,
    pub top: usize,
    /// All places, those above top too.
    pub stack: Vec<Value>,
    pub open: Vec<UpvalRef>,
    pub suspended: Vec<UpvalRef>,
}

#[derive(Clone, Debug, PartialEq, Eq)]
pub struct ProtoRecord {
    pub constants: Vec<Value>,
    pub nested: Vec<u32>,
    /// Whether another prototype nests it.
    pub has_parent: bool,
}

/// An item of gray or grayagain.
#[derive(Clone, Copy, Debug, PartialEq, Eq)]
pub enum WorkItem {
    Table(TableRef),
    Closure(FuncRef),
    Thread(ThreadRef),
    Main,
}

#[derive(Clone, Copy, Debug, PartialEq, Eq)]
pub enum Phase {
    Pause,
    Propagate,
    SweepString,
    Sweep,
    Finalize,
}

#[derive(Clone, Debug, PartialEq, Eq)]
pub struct Counters {
    pub phase: Phase,
    pub white: Colour,
    /// Arena and slot of the sweep cursor.
    pub cursor: (u8, u32),
    pub total: u64,
    pub peak: u64,
    pub limit: Option<u64>,
    pub estimate: u64,
    pub threshold: u64,
    pub debt: i64,
    /// The creation number of the next userdata.
    pub number: u64,
    pub pause: u32,
    pub stepmul: u32,
}

#[derive(Clone, Debug, PartialEq, Eq)]
pub struct MainRecord {
    pub top: usize,
    /// All places, those above top too.
    pub stack: Vec<Value>,
    pub open: Vec<UpvalRef>,
    pub ci: usize,
    /// The function index of each frame.
    pub frames: Vec<usize>,
    pub error: Value,
    pub hook: Value,
    pub global: TableRef,
    pub registry: TableRef,
    pub type_metatables: Vec<Option<TableRef>>,
}
