//! The heap: the source's state, and beside it what only the glue must know.

use crate::answer::{Refusal, STALE, TOTAL, ensure};
use crate::driver::Driver;
use crate::refs::{AnyRef, UdRef};
use crate::sizes::{self, Sizes};
use crate::value::Value;
use crate::vm::callinfo::CallInfo;
use crate::vm::gc::Color;
use crate::vm::gc::arena::{Arena, GcRef};
use crate::vm::gc::collector::{EST_STRING_SIZE, EST_TABLE_SIZE, GcState};
use crate::vm::metatable::{NUM_TYPE_TAGS, TM_N, TMS};
use crate::vm::proto::ProtoRef;
use crate::vm::state::{Gc, LuaState};
use crate::vm::string::{LuaString, StringTable, lua_hash};
use crate::vm::table::Table;
use crate::vm::value::Val;
use std::cell::RefCell;
use std::rc::Rc;

/// A heap of document 01 over the unchanged collector.
pub struct Oracle {
    pub(crate) state: LuaState,
    pub(crate) kept: Kept,
}

/// What the source has no place for.
#[derive(Default)]
pub(crate) struct Kept {
    pub(crate) sizes: Sizes,
    /// Prototypes by number; the source only knows them through closures.
    pub(crate) protos: Vec<ProtoRef>,
    /// Whether the prototype of the same number is nested in another.
    pub(crate) nested: Vec<bool>,
    /// Who gives the commands while a finalizer is out; without one finalizers succeed at once.
    pub(crate) driver: Option<Rc<RefCell<dyn Driver>>>,
    /// The finalizer that is out.
    pub(crate) out: Option<(UdRef, Value)>,
    /// The commands ended while a finalizer was out.
    pub(crate) ended: bool,
    /// The main stack as it stands above its top, see `handout`.
    pub(crate) above: crate::handout::Above,
    /// Top and `ci` as the last finished finalizer left them.
    pub(crate) left: (usize, usize),
}

impl Oracle {
    /// A new heap of these sizes; refusal 4 if one lies outside its range.
    ///
    /// # Errors
    /// Refusal 4.
    pub fn new(sizes: Sizes) -> Result<Self, Refusal> {
        sizes.test()?;
        let mut state = LuaState::new();
        state.gc = empty_gc();
        name(&mut state.gc, b"__mode", TMS::Mode);
        name(&mut state.gc, b"__gc", TMS::Gc);
        state.global = new_table(&mut state.gc, 8, 8);
        state.registry = new_table(&mut state.gc, 8, 8);
        state.stack = vec![Val::Nil; sizes.stack as usize];
        state.base = 0;
        state.top = 0;
        state.call_stack = vec![CallInfo::new(0, 0, 0, 0); sizes.frames as usize];
        let kept = Kept {
            sizes,
            ..Kept::default()
        };
        Ok(Self { state, kept })
    }

    /// A new heap whose commands come from a driver: all of them with [`Oracle::run`], and with
    /// either way those given while a finalizer is out.
    ///
    /// # Errors
    /// Refusal 4, as for [`Oracle::new`].
    pub fn with_driver(sizes: Sizes, driver: Rc<RefCell<dyn Driver>>) -> Result<Self, Refusal> {
        let mut oracle = Self::new(sizes)?;
        oracle.kept.driver = Some(driver);
        Ok(oracle)
    }

    /// The chosen sizes.
    #[must_use]
    pub const fn sizes(&self) -> Sizes {
        self.kept.sizes
    }

    /// The finalizer that is out, if one is: userdata and method.
    #[must_use]
    pub const fn out(&self) -> Option<(UdRef, Value)> {
        self.kept.out
    }

    /// Does the handle name an occupied slot of its kind?
    #[must_use]
    pub fn is_named(&self, handle: AnyRef) -> bool {
        let gc = &self.state.gc;
        match handle {
            AnyRef::Str(r) => gc.string_arena.is_valid(r.gc()),
            AnyRef::Table(r) => gc.tables.is_valid(r.gc()),
            AnyRef::Func(r) => gc.closures.is_valid(r.gc()),
            AnyRef::Upval(r) => gc.upvalues.is_valid(r.gc()),
            AnyRef::Ud(r) => gc.userdata.is_valid(r.gc()),
            AnyRef::Thread(r) => gc.threads.is_valid(r.gc()),
        }
    }

    /// Is the value no handle, or one that names an occupied slot?
    #[must_use]
    pub fn is_sound(&self, value: Value) -> bool {
        match value {
            Value::Nil | Value::Bool(_) | Value::Number(_) | Value::Light(_) => true,
            Value::Str(r) => self.is_named(r.into()),
            Value::Table(r) => self.is_named(r.into()),
            Value::Function(r) => self.is_named(r.into()),
            Value::Userdata(r) => self.is_named(r.into()),
            Value::Thread(r) => self.is_named(r.into()),
        }
    }

    /// Refusal 2 unless the handle is named.
    pub(crate) fn need(&self, handle: impl Into<AnyRef>) -> Result<(), Refusal> {
        ensure(self.is_named(handle.into()), STALE)
    }

    /// Refusal 2 if a handle is given that is not named.
    pub(crate) fn need_maybe(&self, handle: Option<impl Into<AnyRef>>) -> Result<(), Refusal> {
        handle.map_or(Ok(()), |r| self.need(r))
    }

    /// Refusal 2 unless every value is sound.
    pub(crate) fn need_sound(&self, values: &[Value]) -> Result<(), Refusal> {
        ensure(values.iter().all(|v| self.is_sound(*v)), STALE)
    }

    /// Refusal 6 if an object of this size would take the total past its bound.
    pub(crate) fn need_total(&self, size: usize) -> Result<(), Refusal> {
        let total = self.state.gc.gc_state.total_bytes;
        ensure(total.saturating_add(size) <= sizes::TOTAL, TOTAL)
    }
}

/// A collector with nothing in it: the source's own constructor would intern all its names.
fn empty_gc() -> Gc {
    Gc {
        strings: StringTable::new(),
        string_arena: Arena::new(),
        tables: Arena::new(),
        closures: Arena::new(),
        upvalues: Arena::new(),
        userdata: Arena::new(),
        threads: Arena::new(),
        current_white: Color::White0,
        type_metatables: [None; NUM_TYPE_TAGS],
        tm_names: [None; TM_N],
        gc_state: GcState::new(),
    }
}

/// Makes one of the two names and enters it where the collector looks for it.
fn name(gc: &mut Gc, bytes: &[u8], event: TMS) {
    let made = new_string(gc, bytes);
    gc.tm_names[event as usize] = Some(made);
}

/// Allocates a string; the source's intern table stays empty, since hashing is left out.
pub(crate) fn new_string(gc: &mut Gc, bytes: &[u8]) -> GcRef<LuaString> {
    gc.gc_state.track_alloc(EST_STRING_SIZE);
    let record = LuaString::new(bytes, lua_hash(bytes));
    gc.string_arena.alloc(record, gc.current_white)
}

/// Allocates a table; the source would also count its parts in the total.
pub(crate) fn new_table(gc: &mut Gc, array: usize, nodes: usize) -> GcRef<Table> {
    gc.gc_state.track_alloc(EST_TABLE_SIZE);
    let record = Table::with_sizes(array, nodes);
    gc.tables.alloc(record, gc.current_white)
}
