//! Our side: the exported functions over a heap of ours.

use crate::side::{Side, global};
use calls::Collector;
use collector::engine;
use heap::layout::header;
use heap::words::{phase, value};
use oracle::{FuncRef, Phase, Sizes, StrRef, UpvalRef, Value};
use std::hint::black_box;
use steps::engine::{Call, Engine, KINDS, OUT};

/// Our heap, and the proved steps over it.
pub struct Ours {
    pub calls: Collector,
    steps: Box<dyn Engine>,
    out: [u32; OUT],
}

/// The kind of answer that hands a finalizer out.
const HANDED: usize = 4;

impl Ours {
    /// Makes a step; the kind of its answer.
    pub fn step(&mut self, call: Call) -> usize {
        let (engine, heap) = (self.steps.as_mut(), &mut self.calls.heap);
        let code = call.make(engine, heap, &mut self.out);
        assert_eq!(black_box(code), 0, "refused");
        self.out[0] as usize
    }

    fn step_to_end(&mut self, call: Call) {
        let mut kind = self.step(call);
        while kind == HANDED {
            kind = self.step(Call::Finish(true));
        }
        assert!(kind < HANDED, "a step answers {}", KINDS[kind]);
    }

    fn word(&self, place: usize) -> u32 {
        self.calls.heap.words[place]
    }

    /// A call that answers a handle.
    fn made(code: u32, out: [u32; 2]) -> (u32, u32) {
        assert_eq!(black_box(code), 0, "refused");
        (out[0], out[1])
    }
}

impl Side for Ours {
    type Text = ([u8; 8], usize);
    type Upvalues = Vec<u32>;
    type Values = Vec<u32>;

    fn new(sizes: [u32; 10]) -> Self {
        Self {
            calls: Collector::new(Sizes::from(sizes)).expect("sizes in range"),
            steps: steps::linked().expect("the feature engine_steps is on"),
            out: [0; OUT],
        }
    }

    fn text(bytes: &[u8]) -> Self::Text {
        let mut text = [0; 8];
        text[..bytes.len()].copy_from_slice(bytes);
        (text, bytes.len())
    }

    fn upvalues(list: &[UpvalRef]) -> Self::Upvalues {
        let words = list.iter().flat_map(|u| [u.index, u.generation]);
        words.collect()
    }

    fn values(list: &[Value]) -> Self::Values {
        list.iter().flat_map(|v| value(*v)).collect()
    }

    fn make_string(&mut self, (text, length): Self::Text) -> StrRef {
        self.calls.make_string(&text[..length]).expect("done")
    }

    fn make_lua_closure(&mut self, proto: u32, upvalues: &Self::Upvalues) -> FuncRef {
        let (env, mut out) = (global(), [0; 2]);
        let (index, of) = (env.index, env.generation);
        let (w, b) = self.calls.heap.lent();
        let code = engine::make_lua_closure(w, b, proto, index, of, upvalues, &mut out);
        let (index, generation) = Self::made(code, out);
        FuncRef::new(index, generation)
    }

    fn make_rust_closure(&mut self, values: &Self::Values) -> FuncRef {
        let mut out = [0; 2];
        let (w, b) = self.calls.heap.lent();
        let code = engine::make_rust_closure(w, b, 0, 0, 0, values, &mut out);
        let (index, generation) = Self::made(code, out);
        FuncRef::new(index, generation)
    }

    fn make_proto(&mut self, constants: &Self::Values) -> u32 {
        let mut out = [0; 2];
        let (w, b) = self.calls.heap.lent();
        let code = engine::make_proto(w, b, constants, &[], &mut out);
        Self::made(code, out).0
    }

    fn set_pause(&mut self, percent: u32) {
        black_box(self.calls.set_pause(percent).expect("done"));
    }

    fn single(&mut self) {
        self.step_to_end(Call::Single);
    }

    fn budgeted(&mut self, budget: i64) {
        self.step_to_end(Call::Budgeted(budget));
    }

    fn full(&mut self) {
        self.step_to_end(Call::Full);
    }

    fn is_at(&self, named: Phase) -> bool {
        self.word(header::PHASE) == phase(named)
    }

    fn cursor(&self) -> (u32, u32) {
        (self.word(header::CURSOR), self.word(header::CURSOR + 1))
    }

    fn grayagain(&self) -> u32 {
        self.word(header::LISTS + 1)
    }

    fn occupied(&self) -> u32 {
        (0..6).map(|k| self.word(header::ARENAS + 3 * k + 2)).sum()
    }
}
