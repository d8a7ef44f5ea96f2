//! What the source names but was not published with it: conversions, the compiler, the library
//! and the call machinery. Only [`LuaState::call_function`] is ever reached; it is the place
//! where a finalizer is handed out.

#![allow(clippy::unnecessary_wraps)]

use crate::LuaResult;
use crate::vm::gc::arena::GcRef;
use crate::vm::proto::{Proto, ProtoRef};
use crate::vm::state::{Gc, LuaState};
use crate::vm::table::Table;

const NEVER: &str = "no call of the heap comes here";

pub mod conversion {
    //! Traits that the source's generic functions ask for; nothing implements them.
    use crate::LuaResult;
    use crate::api::LuaApiMut;
    use crate::vm::value::Val;

    pub trait FromLua: Sized {
        fn from_lua(value: Val, lua: &mut impl LuaApiMut) -> LuaResult<Self>;
    }

    pub trait IntoLua {
        fn into_lua(self, lua: &mut impl LuaApiMut) -> LuaResult<Val>;
    }
}

pub mod stdlib {
    //! The standard library's one function that the source calls.
    use super::{GcRef, LuaResult, LuaState, NEVER, Table};

    pub fn new_metatable(_: &mut LuaState, _: &str) -> LuaResult<GcRef<Table>> {
        unreachable!("{NEVER}")
    }
}

pub mod debug_info {
    //! Names of functions in error messages.
    use super::{LuaState, NEVER};
    use crate::vm::gc::arena::Arena;
    use crate::vm::string::LuaString;

    pub fn getfuncname(
        _: &LuaState,
        _: usize,
        _: &Arena<LuaString>,
    ) -> Option<(&'static str, String)> {
        unreachable!("{NEVER}")
    }
}

pub mod execute {
    //! Two helpers of the interpreter.
    use super::{Gc, NEVER};
    use crate::vm::value::Val;
    use std::cmp::Ordering;

    pub fn coerce_to_number(_: Val, _: &Gc) -> Option<f64> {
        unreachable!("{NEVER}")
    }

    pub fn l_strcmp(_: &[u8], _: &[u8]) -> Ordering {
        unreachable!("{NEVER}")
    }
}

pub fn compile_or_undump(_: &[u8], _: &str) -> LuaResult<ProtoRef> {
    unreachable!("{NEVER}")
}

pub fn patch_string_constants(_: &mut Proto, _: &mut Gc) {
    unreachable!("{NEVER}")
}

impl LuaState {
    /// The collector calls a `__gc` method here: method and userdata stand at `func` and the
    /// place after it on the main stack. The host decides what comes of it.
    pub fn call_function(&mut self, func: usize, _results: i32) -> LuaResult<()> {
        crate::handout::hand(self, func)
    }
}
