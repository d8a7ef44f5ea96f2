//! The other side: the source's collector, through the oracle.

use crate::side::{Side, global};
use oracle::{FuncRef, Oracle, Phase, Sizes, StrRef, UpvalRef, Value};
use std::hint::black_box;

/// The source's heap.
pub struct Source {
    pub calls: Oracle,
}

impl Side for Source {
    type Text = Vec<u8>;
    type Upvalues = Vec<UpvalRef>;
    type Values = Vec<Value>;

    fn new(sizes: [u32; 10]) -> Self {
        let calls = Oracle::new(Sizes::from(sizes)).expect("sizes in range");
        Self { calls }
    }

    fn text(bytes: &[u8]) -> Self::Text {
        bytes.to_vec()
    }

    fn upvalues(list: &[UpvalRef]) -> Self::Upvalues {
        list.to_vec()
    }

    fn values(list: &[Value]) -> Self::Values {
        list.to_vec()
    }

    fn make_string(&mut self, text: Self::Text) -> StrRef {
        self.calls.make_string(text).expect("done")
    }

    // A closure or prototype of the source owns its list: the copy is a part of making it.
    fn make_lua_closure(&mut self, proto: u32, upvalues: &Self::Upvalues) -> FuncRef {
        let made = self
            .calls
            .make_lua_closure(proto, global(), upvalues.clone());
        made.expect("done")
    }

    fn make_rust_closure(&mut self, values: &Self::Values) -> FuncRef {
        let made = self.calls.make_rust_closure(None, values.clone());
        made.expect("done")
    }

    fn make_proto(&mut self, constants: &Self::Values) -> u32 {
        let made = self.calls.make_proto(constants.clone(), Vec::new());
        made.expect("done")
    }

    fn set_pause(&mut self, percent: u32) {
        black_box(self.calls.set_pause(percent));
    }

    fn single(&mut self) {
        black_box(self.calls.bare_singlestep());
    }

    fn budgeted(&mut self, budget: i64) {
        black_box(self.calls.bare_step(budget));
    }

    fn full(&mut self) {
        self.calls.bare_full();
    }

    fn is_at(&self, named: Phase) -> bool {
        self.calls.counters().phase == named
    }

    fn cursor(&self) -> (u32, u32) {
        let (arena, slot) = self.calls.counters().cursor;
        (arena.into(), slot)
    }

    fn grayagain(&self) -> u32 {
        self.calls.snapshot().grayagain.len() as u32
    }

    fn occupied(&self) -> u32 {
        let all = self.calls.snapshot();
        let objects = all.strings.occupied + all.tables.occupied + all.closures.occupied;
        objects + all.upvalues.occupied + all.userdata.occupied + all.threads.occupied
    }
}
