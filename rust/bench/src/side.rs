//! The two engines behind one trait, so that each row is written once.
//!
//! Ours goes through the exported functions of the static libraries. The source is the oracle's heap:
//! its calls test what document 01 refuses, as ours do, and its steps are the source's own with
//! nothing around them. Every call must be done: a refusal ends the run.

pub use crate::ours::Ours;
pub use crate::source::Source;
use oracle::{FuncRef, Phase, StrRef, TableRef, ThreadRef, UdRef, UpvalRef, Value};

/// The calls that both have in the same form.
macro_rules! calls {
    ($($name:ident($($given:ident: $kind:ty),*) $(-> $made:ty)?;)*) => {
        pub trait Calls {
            $(fn $name(&mut self, $($given: $kind),*) $(-> $made)?;)*
        }
        calls!(@side Ours $($name($($given: $kind),*) $(-> $made)?;)*);
        calls!(@side Source $($name($($given: $kind),*) $(-> $made)?;)*);
    };
    (@side $side:ident $($name:ident($($given:ident: $kind:ty),*) $(-> $made:ty)?;)*) => {
        impl Calls for $side {
            $(fn $name(&mut self, $($given: $kind),*) $(-> $made)? {
                self.calls.$name($($given),*).expect("done")
            })*
        }
    };
}

calls! {
    push(v: Value);
    pop() -> Value;
    set_top(top: u32);
    open_push(u: UpvalRef);
    table_set(t: TableRef, i: u32, v: Value);
    table_set_node(t: TableRef, j: u32, k: Value, v: Value);
    table_set_meta(t: TableRef, meta: Option<TableRef>);
    upvalue_set(u: UpvalRef, v: Value);
    ud_set_meta(d: UdRef, meta: Option<TableRef>);
    set_type_meta(kind: u32, meta: Option<TableRef>);
    thread_push(h: ThreadRef, v: Value);
    make_table(array: u32, nodes: u32) -> TableRef;
    make_open_upvalue() -> UpvalRef;
    make_closed_upvalue(v: Value) -> UpvalRef;
    make_userdata() -> UdRef;
    make_thread(global: TableRef, stack: u32) -> ThreadRef;
}

pub trait Side: Calls {
    /// At most 8 bytes of a string, handles of upvalues and values as the side takes them.
    type Text;
    type Upvalues;
    type Values;

    fn new(sizes: [u32; 10]) -> Self;
    fn text(bytes: &[u8]) -> Self::Text;
    fn upvalues(list: &[UpvalRef]) -> Self::Upvalues;
    fn values(list: &[Value]) -> Self::Values;

    fn make_string(&mut self, text: Self::Text) -> StrRef;
    fn make_lua_closure(&mut self, proto: u32, upvalues: &Self::Upvalues) -> FuncRef;
    fn make_rust_closure(&mut self, values: &Self::Values) -> FuncRef;
    fn make_proto(&mut self, constants: &Self::Values) -> u32;
    fn set_pause(&mut self, percent: u32);

    /// The three kinds of steps. A finalizer that is handed out is finished with success.
    fn single(&mut self);
    fn budgeted(&mut self, budget: i64);
    fn full(&mut self);

    fn is_at(&self, phase: Phase) -> bool;
    /// Arena and slot of the sweep cursor.
    fn cursor(&self) -> (u32, u32);
    /// How many tables and threads are to be traversed again.
    fn grayagain(&self) -> u32;
    /// How many slots of all arenas are occupied.
    fn occupied(&self) -> u32;

    /// Makes single steps until the heap is in a phase.
    fn go_to(&mut self, phase: Phase) {
        while !self.is_at(phase) {
            self.single();
        }
    }
}

/// The global table, which is there in every heap: array 8, nodes 8. The registry is like it.
pub fn global() -> TableRef {
    TableRef::new(0, 0)
}

pub fn registry() -> TableRef {
    TableRef::new(1, 0)
}

/// The two names, which are there in every heap.
pub fn name_mode() -> Value {
    Value::Str(StrRef::new(0, 0))
}

pub fn name_gc() -> Value {
    Value::Str(StrRef::new(1, 0))
}
