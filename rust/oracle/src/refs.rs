//! Handles: one type for each kind, so that a string's can never be given where a table's is
//! wanted. A handle is an index and a generation and may be stale.

use crate::vm::closure::{Closure, Upvalue};
use crate::vm::gc::arena::GcRef;
use crate::vm::state::LuaThread;
use crate::vm::string::LuaString;
use crate::vm::table::Table;
use crate::vm::value::Userdata;
use std::fmt;

macro_rules! handle {
    ($(#[$doc:meta])* $name:ident, $letter:literal, $record:ty) => {
        $(#[$doc])*
        #[derive(Clone, Copy, Debug, PartialEq, Eq, PartialOrd, Ord, Hash)]
        pub struct $name {
            pub index: u32,
            pub generation: u32,
        }

        impl $name {
            /// The letter that scripts and dumps write before index and generation.
            pub const LETTER: char = $letter;

            /// The handle of this index and generation, whether or not it names a slot.
            #[must_use]
            pub const fn new(index: u32, generation: u32) -> Self {
                Self { index, generation }
            }

            pub(crate) fn gc(self) -> GcRef<$record> {
                GcRef::named(self.index, self.generation)
            }
        }

        impl From<GcRef<$record>> for $name {
            fn from(r: GcRef<$record>) -> Self {
                Self::new(r.index(), r.generation())
            }
        }

        impl fmt::Display for $name {
            fn fmt(&self, f: &mut fmt::Formatter<'_>) -> fmt::Result {
                write!(f, "{}{}.{}", Self::LETTER, self.index, self.generation)
            }
        }
    };
}

handle!(
    /// A string's handle, `s2.0`.
    StrRef, 's', LuaString
);
handle!(
    /// A table's handle, `t3.0`.
    TableRef, 't', Table
);
handle!(
    /// A closure's handle, `f0.0`.
    FuncRef, 'f', Closure
);
handle!(
    /// An upvalue's handle, `u0.0`.
    UpvalRef, 'u', Upvalue
);
handle!(
    /// A userdata's handle, `d1.4`.
    UdRef, 'd', Userdata
);
handle!(
    /// A thread's handle, `h0.0`.
    ThreadRef, 'h', LuaThread
);

/// A handle of any kind.
#[derive(Clone, Copy, Debug, PartialEq, Eq, PartialOrd, Ord, Hash)]
pub enum AnyRef {
    Str(StrRef),
    Table(TableRef),
    Func(FuncRef),
    Upval(UpvalRef),
    Ud(UdRef),
    Thread(ThreadRef),
}

macro_rules! any {
    ($($case:ident $name:ident),*) => {
        $(impl From<$name> for AnyRef {
            fn from(r: $name) -> Self {
                Self::$case(r)
            }
        })*

        impl fmt::Display for AnyRef {
            fn fmt(&self, f: &mut fmt::Formatter<'_>) -> fmt::Result {
                match self {
                    $(Self::$case(r) => r.fmt(f),)*
                }
            }
        }
    };
}

any!(Str StrRef, Table TableRef, Func FuncRef, Upval UpvalRef, Ud UdRef, Thread ThreadRef);
