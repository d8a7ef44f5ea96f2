//! Storing in upvalues and userdata, and giving type metatables: all with the forward barrier.

use crate::answer::{RANGE, Refusal, UNFIT, ensure};
use crate::heap::Oracle;
use crate::refs::{TableRef, UdRef, UpvalRef};
use crate::sizes;
use crate::value::Value;
use crate::vm::closure::{Upvalue, UpvalueState};
use crate::vm::gc::Color;
use crate::vm::value::Val;

impl Oracle {
    /// Closes an open upvalue over a value.
    pub fn upvalue_close(&mut self, u: UpvalRef, v: Value) -> Result<(), Refusal> {
        let closed = |upvalue: &Upvalue| !upvalue.is_open();
        ensure(!self.upvalue(u).is_some_and(closed), UNFIT)?;
        self.put_upvalue(u, v)
    }

    /// Sets a closed upvalue.
    pub fn upvalue_set(&mut self, u: UpvalRef, v: Value) -> Result<(), Refusal> {
        ensure(!self.upvalue(u).is_some_and(Upvalue::is_open), UNFIT)?;
        self.put_upvalue(u, v)
    }

    fn upvalue(&self, u: UpvalRef) -> Option<&Upvalue> {
        self.state.gc.upvalues.get(u.gc())
    }

    fn put_upvalue(&mut self, u: UpvalRef, v: Value) -> Result<(), Refusal> {
        self.need(u)?;
        self.need_sound(&[v])?;
        let value = v.val();
        let gc = &mut self.state.gc;
        if let Some(upvalue) = gc.upvalues.get_mut(u.gc()) {
            upvalue.state = UpvalueState::Closed { value };
        }
        let colour = gc.upvalues.color(u.gc());
        self.forward(colour, value);
        Ok(())
    }

    /// Gives a userdata a metatable or takes it away.
    pub fn ud_set_meta(&mut self, d: UdRef, meta: Option<TableRef>) -> Result<(), Refusal> {
        self.need(d)?;
        self.need_maybe(meta)?;
        if let Some(userdata) = self.state.gc.userdata.get_mut(d.gc()) {
            userdata.set_metatable(meta.map(TableRef::gc));
        }
        self.forward_from_userdata(d, meta);
        Ok(())
    }

    /// Gives a userdata an environment or takes it away.
    pub fn ud_set_env(&mut self, d: UdRef, env: Option<TableRef>) -> Result<(), Refusal> {
        self.need(d)?;
        self.need_maybe(env)?;
        if let Some(userdata) = self.state.gc.userdata.get_mut(d.gc()) {
            userdata.set_env(env.map(TableRef::gc));
        }
        self.forward_from_userdata(d, env);
        Ok(())
    }

    fn forward_from_userdata(&mut self, d: UdRef, child: Option<TableRef>) {
        let colour = self.state.gc.userdata.color(d.gc());
        if let Some(table) = child {
            self.forward(colour, Val::Table(table.gc()));
        }
    }

    /// Gives a type its metatable; the main record is taken as black.
    pub fn set_type_meta(&mut self, kind: u32, meta: Option<TableRef>) -> Result<(), Refusal> {
        ensure(kind < sizes::TYPE_METATABLES, RANGE)?;
        self.need_maybe(meta)?;
        self.state.gc.type_metatables[kind as usize] = meta.map(TableRef::gc);
        if let Some(table) = meta {
            self.forward(Some(Color::Black), Val::Table(table.gc()));
        }
        Ok(())
    }

    /// The source's forward barrier.
    pub(crate) fn forward(&mut self, parent: Option<Color>, child: Val) {
        if let Some(colour) = parent {
            self.state.gc.barrier_forward_val(colour, child);
        }
    }
}
