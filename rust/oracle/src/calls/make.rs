//! Making objects. Sizes in the total: the source's own estimates, without the parts that it
//! adds for strings and tables.

use crate::answer::{FULL, RANGE, Refusal, ensure};
use crate::heap::{Oracle, new_string, new_table};
use crate::refs::{FuncRef, StrRef, TableRef, ThreadRef, UdRef, UpvalRef};
use crate::sizes;
use crate::value::Value;
use crate::vm::closure::{Closure, LuaClosure, RustClosure, Upvalue};
use crate::vm::gc::arena::Arena;
use crate::vm::gc::collector::{
    EST_CLOSURE_SIZE, EST_STRING_SIZE, EST_TABLE_SIZE, EST_THREAD_SIZE, EST_UPVALUE_SIZE,
    EST_USERDATA_SIZE,
};
use crate::vm::proto::ProtoRef;
use crate::vm::state::LuaThread;
use crate::vm::value::{Userdata, Val};

/// Refusal 3 if all chosen slots are occupied.
fn need_slot<T>(arena: &Arena<T>, slots: u32) -> Result<(), Refusal> {
    ensure(arena.len() < slots, FULL)
}

impl Oracle {
    /// A string with these bytes, found or new. One found in the old white takes the current
    /// one, which the source forgets.
    pub fn make_string(&mut self, bytes: Vec<u8>) -> Result<StrRef, Refusal> {
        ensure(bytes.len() <= sizes::STRING_BYTES, RANGE)?;
        let gc = &mut self.state.gc;
        let found = gc.string_arena.iter().find(|(_, s, _)| s.data() == bytes);
        if let Some((handle, _, colour)) = found {
            if colour == gc.current_white.other_white() {
                gc.string_arena.set_color(handle, gc.current_white);
            }
            return Ok(handle.into());
        }
        self.need_total(EST_STRING_SIZE)?;
        need_slot(&self.state.gc.string_arena, self.sizes().strings)?;
        Ok(new_string(&mut self.state.gc, &bytes).into())
    }

    /// A table with so many array places and nodes.
    pub fn make_table(&mut self, array: u32, nodes: u32) -> Result<TableRef, Refusal> {
        let fit = nodes == 0 || (nodes.is_power_of_two() && nodes <= sizes::TABLE_NODES);
        ensure(array <= sizes::TABLE_ARRAY && fit, RANGE)?;
        self.need_total(EST_TABLE_SIZE)?;
        need_slot(&self.state.gc.tables, self.sizes().tables)?;
        Ok(new_table(&mut self.state.gc, array as usize, nodes as usize).into())
    }

    /// A Lua closure of a prototype.
    pub fn make_lua_closure(
        &mut self,
        proto: u32,
        env: TableRef,
        upvalues: Vec<UpvalRef>,
    ) -> Result<FuncRef, Refusal> {
        let number = proto as usize;
        let known = number < self.kept.protos.len();
        ensure(known && upvalues.len() <= sizes::UPVALUES, RANGE)?;
        self.need(env)?;
        upvalues.iter().try_for_each(|u| self.need(*u))?;
        self.need_constants(number)?;
        let proto = ProtoRef::clone(&self.kept.protos[number]);
        let upvalues = upvalues.into_iter().map(UpvalRef::gc).collect();
        let env = env.gc();
        self.add_closure(Closure::Lua(LuaClosure {
            proto,
            upvalues,
            env,
        }))
    }

    /// A Rust closure with its own values.
    pub fn make_rust_closure(
        &mut self,
        env: Option<TableRef>,
        values: Vec<Value>,
    ) -> Result<FuncRef, Refusal> {
        ensure(values.len() <= sizes::UPVALUES, RANGE)?;
        self.need_maybe(env)?;
        self.need_sound(&values)?;
        let mut closure = RustClosure::new(|_| Ok(0), "");
        closure.upvalues = values.into_iter().map(Value::val).collect();
        closure.env = env.map(TableRef::gc);
        self.add_closure(Closure::Rust(closure))
    }

    fn add_closure(&mut self, closure: Closure) -> Result<FuncRef, Refusal> {
        self.need_total(EST_CLOSURE_SIZE)?;
        need_slot(&self.state.gc.closures, self.sizes().closures)?;
        Ok(self.state.gc.alloc_closure(closure).into())
    }

    /// An open upvalue; its stack index stays with the host.
    pub fn make_open_upvalue(&mut self) -> Result<UpvalRef, Refusal> {
        self.add_upvalue(Upvalue::new_open(0))
    }

    /// A closed upvalue.
    pub fn make_closed_upvalue(&mut self, v: Value) -> Result<UpvalRef, Refusal> {
        self.need_sound(&[v])?;
        self.add_upvalue(Upvalue::new_closed(v.val()))
    }

    fn add_upvalue(&mut self, upvalue: Upvalue) -> Result<UpvalRef, Refusal> {
        self.need_total(EST_UPVALUE_SIZE)?;
        need_slot(&self.state.gc.upvalues, self.sizes().upvalues)?;
        Ok(self.state.gc.alloc_upvalue(upvalue).into())
    }

    /// A userdata; the source gives it the next creation number.
    pub fn make_userdata(&mut self) -> Result<UdRef, Refusal> {
        self.need_total(EST_USERDATA_SIZE)?;
        need_slot(&self.state.gc.userdata, self.sizes().userdata)?;
        let record = Userdata::new(Box::new(()));
        Ok(self.state.gc.alloc_userdata(record).into())
    }

    /// A thread with a stack of its own.
    pub fn make_thread(&mut self, global: TableRef, stack: u32) -> Result<ThreadRef, Refusal> {
        ensure(stack <= sizes::THREAD_STACK, RANGE)?;
        self.need(global)?;
        self.need_total(EST_THREAD_SIZE)?;
        need_slot(&self.state.gc.threads, self.sizes().threads)?;
        let mut record = LuaThread::new(Val::Nil, global.gc());
        record.stack = vec![Val::Nil; stack as usize];
        record.base = 0;
        record.top = 0;
        Ok(self.state.gc.alloc_thread(record).into())
    }
}
