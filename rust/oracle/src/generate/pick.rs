//! Picking handles, values and numbers.

use super::Generator;
use crate::heap::Oracle;
use crate::refs::{AnyRef, FuncRef, StrRef, TableRef, ThreadRef, UdRef, UpvalRef};
use crate::value::Value;
use crate::vm::gc::arena::{Arena, GcRef};

/// Numbers at which something happens: zeros, NaN, infinity, small ones.
const NUMBERS: &[u64] = &[
    0,
    1 << 63,
    0x7ff8_0000_0000_0000,
    0xfff0_0000_0000_0001,
    0x7ff0_0000_0000_0000,
    0x3ff0_0000_0000_0000,
    0x4000_0000_0000_0000,
    1,
];

/// How often, in a hundred, a handle may be stale.
const STALE_SHARE: u32 = 3;

fn live<T, R: From<GcRef<T>>>(arena: &Arena<T>) -> Vec<R> {
    arena.iter().map(|(handle, _, _)| handle.into()).collect()
}

macro_rules! picks {
    ($($pick:ident, $name:ident, $case:ident, $arena:ident;)*) => {
        impl Generator {
            $(
                /// A handle of this kind: mostly live, sometimes seen before, else made up.
                pub(super) fn $pick(&mut self, heap: &Oracle) -> $name {
                    let made_up = $name::new(self.random.below(6), self.random.below(3));
                    if self.random.percent(STALE_SHARE) {
                        let one = |r: &AnyRef| match r {
                            AnyRef::$case(r) => Some(*r),
                            _ => None,
                        };
                        let seen: Vec<$name> = self.seen.iter().filter_map(one).collect();
                        return self.random.pick(&seen).unwrap_or(made_up);
                    }
                    let named: Vec<$name> = live(&heap.state.gc.$arena);
                    self.missed |= named.is_empty();
                    self.random.pick(&named).unwrap_or(made_up)
                }
            )*
        }
    };
}

picks! {
    string, StrRef, Str, string_arena;
    table, TableRef, Table, tables;
    closure, FuncRef, Func, closures;
    upvalue, UpvalRef, Upval, upvalues;
    userdata, UdRef, Ud, userdata;
    thread, ThreadRef, Thread, threads;
}

impl Generator {
    pub(super) fn value(&mut self, heap: &Oracle) -> Value {
        match self.random.below(100) {
            0..8 => Value::Nil,
            8..16 => Value::Bool(self.random.percent(50)),
            16..28 => Value::Number(self.random.pick(NUMBERS).unwrap_or(0)),
            28..32 => Value::Light(u64::from(self.random.below(4))),
            32..50 => Value::Str(self.string(heap)),
            50..70 => Value::Table(self.table(heap)),
            70..82 => Value::Function(self.closure(heap)),
            82..93 => Value::Userdata(self.userdata(heap)),
            _ => Value::Thread(self.thread(heap)),
        }
    }

    /// A value for a table: mostly one that dies in weak ones.
    pub(super) fn link(&mut self, heap: &Oracle) -> Value {
        match self.random.below(100) {
            0..40 => self.value(heap),
            40..58 => Value::Table(self.table(heap)),
            58..72 => Value::Function(self.closure(heap)),
            72..86 => Value::Userdata(self.userdata(heap)),
            _ => Value::Thread(self.thread(heap)),
        }
    }

    pub(super) fn values(&mut self, heap: &Oracle, most: u32) -> Vec<Value> {
        let count = self.random.below(most.saturating_add(1));
        (0..count).map(|_| self.value(heap)).collect()
    }

    pub(super) fn maybe_table(&mut self, heap: &Oracle) -> Option<TableRef> {
        (!self.random.percent(15)).then(|| self.table(heap))
    }

    /// A number below the bound, in a few cases at or above it.
    pub(super) fn index(&mut self, bound: usize) -> u32 {
        self.missed |= bound == 0;
        match self.random.below(100) {
            0..3 => bound as u32,
            3 => self.random.bits() as u32,
            _ => self.random.below(bound as u32),
        }
    }

    /// A handle of any kind.
    pub(super) fn any(&mut self, heap: &Oracle) -> AnyRef {
        match self.random.below(6) {
            0 => self.string(heap).into(),
            1 => self.table(heap).into(),
            2 => self.closure(heap).into(),
            3 => self.upvalue(heap).into(),
            4 => self.userdata(heap).into(),
            _ => self.thread(heap).into(),
        }
    }
}
