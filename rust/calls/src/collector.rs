//! A heap of ours with every call by its name, on plain types.

use ::collector::engine;
use heap::ask::{joined, value as read_value};
use heap::words::value;
use heap::{Refused, Words, needed};
use oracle::{FuncRef, Sizes, Step, StrRef, TableRef, ThreadRef, UdRef, UpvalRef, Value};
use proved::answered;
use steps::Engine;
use steps::engine::{Call, OUT};

/// An answer, or a refusal.
pub type Told<T> = Result<T, Refused>;

/// What is lent for an answer: a word that no answer has. A refused call leaves it.
const LENT: u32 = 0xa5a5_a5a5;

/// The words that a call tells.
fn told<const N: usize>(call: impl FnOnce(&mut [u32]) -> u32) -> Told<[u32; N]> {
    let mut out = [LENT; N];
    let answer = answered(call(&mut out));
    if answer.is_err() {
        assert_eq!(out, [LENT; N], "a refused call leaves what it was lent");
    }
    answer.map(|()| out)
}

/// A value that a call tells.
fn told_value(call: impl FnOnce(&mut [u32]) -> u32) -> Told<Value> {
    let [tag, low, high] = told(call)?;
    Ok(read_value(tag, low, high).expect("a value"))
}

/// A table's handle that may be missing, as calls take it.
fn maybe(t: Option<TableRef>) -> [u32; 3] {
    t.map_or([0; 3], |t| [1, t.index, t.generation])
}

fn values(list: &[Value]) -> Vec<u32> {
    list.iter().flat_map(|v| value(*v)).collect()
}

fn step(out: [u32; OUT]) -> Step {
    match out {
        [0, cost, 0, 0, 0, 0] => Step::Stepped(cost.into()),
        [1, 0, 0, 0, 0, 0] => Step::Unfinished,
        [2, 0, 0, 0, 0, 0] => Step::Ended,
        [3, 0, 0, 0, 0, 0] => Step::Passed,
        [4, index, generation, tag, low, high] => {
            let method = read_value(tag, low, high).expect("a value");
            Step::Handed(UdRef::new(index, generation), method)
        }
        [5, 0, 0, 0, 0, 0] => Step::Busy,
        [6, 0, 0, 0, 0, 0] => Step::Failed,
        odd => panic!("a step answers {odd:?}"),
    }
}

/// A heap of ours.
pub struct Collector {
    pub heap: Words,
    steps: Box<dyn Engine>,
}

/// What buffers hold before a heap is made in them, and past its end for ever.
pub const ODD_WORD: u32 = 0xdead_beef;
pub const ODD_BYTE: u8 = 0xdb;

/// How much longer than needed the buffers are.
pub const PAST: usize = 3;

/// Every call but the reads, which [`Words`] has.
///
/// # Errors
/// A refusal by its number.
impl Collector {
    /// Makes a heap in buffers that are odd before, and longer than needed.
    pub fn new(sizes: Sizes) -> Told<Self> {
        let sizes = <[u32; 10]>::from(sizes);
        let (words, bytes) = needed(&sizes)?;
        let mut heap = Words {
            words: vec![ODD_WORD; words + PAST],
            bytes: vec![ODD_BYTE; bytes + PAST],
        };
        heap.make_heap(&sizes)?;
        let steps = steps::linked().expect("the feature engine_steps is on");
        Ok(Self { heap, steps })
    }

    /// The same over buffers as they are.
    pub fn of(heap: Words) -> Self {
        let steps = steps::linked().expect("the feature engine_steps is on");
        Self { heap, steps }
    }

    pub fn make_string(&mut self, bytes: &[u8]) -> Told<StrRef> {
        let (w, b) = self.heap.lent();
        let [index, generation] = told(|out| engine::make_string(w, b, bytes, out))?;
        Ok(StrRef::new(index, generation))
    }

    pub fn make_table(&mut self, array: u32, nodes: u32) -> Told<TableRef> {
        let (w, b) = self.heap.lent();
        let [index, generation] = told(|out| engine::make_table(w, b, array, nodes, out))?;
        Ok(TableRef::new(index, generation))
    }

    pub fn make_proto(&mut self, constants: &[Value], nested: &[u32]) -> Told<u32> {
        let constants = values(constants);
        let (w, b) = self.heap.lent();
        let [number, rest] = told(|out| engine::make_proto(w, b, &constants, nested, out))?;
        assert_eq!(rest, 0, "a number and 0");
        Ok(number)
    }

    pub fn make_lua_closure(
        &mut self,
        proto: u32,
        env: TableRef,
        upvalues: &[UpvalRef],
    ) -> Told<FuncRef> {
        let upvalues = upvalues.iter().flat_map(|u| [u.index, u.generation]);
        let upvalues: Vec<u32> = upvalues.collect();
        let (w, b) = self.heap.lent();
        let [index, generation] = told(|out| {
            engine::make_lua_closure(w, b, proto, env.index, env.generation, &upvalues, out)
        })?;
        Ok(FuncRef::new(index, generation))
    }

    pub fn make_rust_closure(&mut self, env: Option<TableRef>, held: &[Value]) -> Told<FuncRef> {
        let ([some, table, of], held) = (maybe(env), values(held));
        let (w, b) = self.heap.lent();
        let [index, generation] =
            told(|out| engine::make_rust_closure(w, b, some, table, of, &held, out))?;
        Ok(FuncRef::new(index, generation))
    }

    pub fn make_open_upvalue(&mut self) -> Told<UpvalRef> {
        let (w, b) = self.heap.lent();
        let [index, generation] = told(|out| engine::make_open_upvalue(w, b, out))?;
        Ok(UpvalRef::new(index, generation))
    }

    pub fn make_closed_upvalue(&mut self, v: Value) -> Told<UpvalRef> {
        let [tag, low, high] = value(v);
        let (w, b) = self.heap.lent();
        let [index, generation] =
            told(|out| engine::make_closed_upvalue(w, b, tag, low, high, out))?;
        Ok(UpvalRef::new(index, generation))
    }

    pub fn make_userdata(&mut self) -> Told<UdRef> {
        let (w, b) = self.heap.lent();
        let [index, generation] = told(|out| engine::make_userdata(w, b, out))?;
        Ok(UdRef::new(index, generation))
    }

    pub fn make_thread(&mut self, global: TableRef, stack: u32) -> Told<ThreadRef> {
        let (w, b) = self.heap.lent();
        let [index, generation] =
            told(|out| engine::make_thread(w, b, global.index, global.generation, stack, out))?;
        Ok(ThreadRef::new(index, generation))
    }

    pub fn table_set(&mut self, t: TableRef, i: u32, v: Value) -> Told<()> {
        let [tag, low, high] = value(v);
        let (w, b) = self.heap.lent();
        answered(engine::table_set(
            w,
            b,
            t.index,
            t.generation,
            i,
            tag,
            low,
            high,
        ))
    }

    pub fn table_set_node(&mut self, t: TableRef, j: u32, k: Value, v: Value) -> Told<()> {
        let ([key, first, second], [tag, low, high]) = (value(k), value(v));
        let (w, b) = self.heap.lent();
        let (index, of) = (t.index, t.generation);
        let code = engine::table_set_node(w, b, index, of, j, key, first, second, tag, low, high);
        answered(code)
    }

    pub fn table_set_meta(&mut self, t: TableRef, meta: Option<TableRef>) -> Told<()> {
        let [some, table, of] = maybe(meta);
        let (w, b) = self.heap.lent();
        answered(engine::table_set_meta(
            w,
            b,
            t.index,
            t.generation,
            some,
            table,
            of,
        ))
    }

    pub fn upvalue_close(&mut self, u: UpvalRef, v: Value) -> Told<()> {
        let [tag, low, high] = value(v);
        let (w, b) = self.heap.lent();
        answered(engine::upvalue_close(
            w,
            b,
            u.index,
            u.generation,
            tag,
            low,
            high,
        ))
    }

    pub fn upvalue_set(&mut self, u: UpvalRef, v: Value) -> Told<()> {
        let [tag, low, high] = value(v);
        let (w, b) = self.heap.lent();
        answered(engine::upvalue_set(
            w,
            b,
            u.index,
            u.generation,
            tag,
            low,
            high,
        ))
    }

    pub fn ud_set_meta(&mut self, d: UdRef, meta: Option<TableRef>) -> Told<()> {
        let [some, table, of] = maybe(meta);
        let (w, b) = self.heap.lent();
        answered(engine::ud_set_meta(
            w,
            b,
            d.index,
            d.generation,
            some,
            table,
            of,
        ))
    }

    pub fn ud_set_env(&mut self, d: UdRef, env: Option<TableRef>) -> Told<()> {
        let [some, table, of] = maybe(env);
        let (w, b) = self.heap.lent();
        answered(engine::ud_set_env(
            w,
            b,
            d.index,
            d.generation,
            some,
            table,
            of,
        ))
    }

    pub fn set_type_meta(&mut self, kind: u32, meta: Option<TableRef>) -> Told<()> {
        let [some, table, of] = maybe(meta);
        let (w, b) = self.heap.lent();
        answered(engine::set_type_meta(w, b, kind, some, table, of))
    }
}

/// The main record.
///
/// # Errors
/// A refusal by its number.
impl Collector {
    pub fn push(&mut self, v: Value) -> Told<()> {
        let [tag, low, high] = value(v);
        let (w, b) = self.heap.lent();
        answered(engine::push(w, b, tag, low, high))
    }

    pub fn pop(&mut self) -> Told<Value> {
        let (w, b) = self.heap.lent();
        told_value(|out| engine::pop(w, b, out))
    }

    pub fn stack_set(&mut self, i: u32, v: Value) -> Told<()> {
        let [tag, low, high] = value(v);
        let (w, b) = self.heap.lent();
        answered(engine::stack_set(w, b, i, tag, low, high))
    }

    pub fn set_top(&mut self, top: u32) -> Told<()> {
        let (w, b) = self.heap.lent();
        answered(engine::set_top(w, b, top))
    }

    pub fn open_push(&mut self, u: UpvalRef) -> Told<()> {
        let (w, b) = self.heap.lent();
        answered(engine::open_push(w, b, u.index, u.generation))
    }

    pub fn open_cut(&mut self, count: u32) -> Told<()> {
        let (w, b) = self.heap.lent();
        answered(engine::open_cut(w, b, count))
    }

    pub fn set_frame(&mut self, frame: u32, function: u32) -> Told<()> {
        let (w, b) = self.heap.lent();
        answered(engine::set_frame(w, b, frame, function))
    }

    pub fn set_ci(&mut self, ci: u32) -> Told<()> {
        let (w, b) = self.heap.lent();
        answered(engine::set_ci(w, b, ci))
    }

    pub fn set_error(&mut self, v: Value) -> Told<()> {
        let [tag, low, high] = value(v);
        let (w, b) = self.heap.lent();
        answered(engine::set_error(w, b, tag, low, high))
    }

    pub fn set_hook(&mut self, v: Value) -> Told<()> {
        let [tag, low, high] = value(v);
        let (w, b) = self.heap.lent();
        answered(engine::set_hook(w, b, tag, low, high))
    }
}

/// Threads.
///
/// # Errors
/// A refusal by its number.
impl Collector {
    pub fn thread_push(&mut self, h: ThreadRef, v: Value) -> Told<()> {
        let [tag, low, high] = value(v);
        let (w, b) = self.heap.lent();
        answered(engine::thread_push(
            w,
            b,
            h.index,
            h.generation,
            tag,
            low,
            high,
        ))
    }

    pub fn thread_pop(&mut self, h: ThreadRef) -> Told<Value> {
        let (w, b) = self.heap.lent();
        told_value(|out| engine::thread_pop(w, b, h.index, h.generation, out))
    }

    pub fn thread_set(&mut self, h: ThreadRef, i: u32, v: Value) -> Told<()> {
        let [tag, low, high] = value(v);
        let (w, b) = self.heap.lent();
        answered(engine::thread_set(
            w,
            b,
            h.index,
            h.generation,
            i,
            tag,
            low,
            high,
        ))
    }

    pub fn thread_set_top(&mut self, h: ThreadRef, top: u32) -> Told<()> {
        let (w, b) = self.heap.lent();
        answered(engine::thread_set_top(w, b, h.index, h.generation, top))
    }

    pub fn thread_open_push(&mut self, h: ThreadRef, u: UpvalRef) -> Told<()> {
        let (w, b) = self.heap.lent();
        answered(engine::thread_open_push(
            w,
            b,
            h.index,
            h.generation,
            u.index,
            u.generation,
        ))
    }

    pub fn thread_open_cut(&mut self, h: ThreadRef, count: u32) -> Told<()> {
        let (w, b) = self.heap.lent();
        answered(engine::thread_open_cut(w, b, h.index, h.generation, count))
    }

    pub fn thread_suspended_push(&mut self, h: ThreadRef, u: UpvalRef) -> Told<()> {
        let (w, b) = self.heap.lent();
        answered(engine::thread_suspended_push(
            w,
            b,
            h.index,
            h.generation,
            u.index,
            u.generation,
        ))
    }

    pub fn thread_suspended_cut(&mut self, h: ThreadRef, count: u32) -> Told<()> {
        let (w, b) = self.heap.lent();
        answered(engine::thread_suspended_cut(
            w,
            b,
            h.index,
            h.generation,
            count,
        ))
    }

    pub fn thread_set_global(&mut self, h: ThreadRef, t: TableRef) -> Told<()> {
        let (w, b) = self.heap.lent();
        answered(engine::thread_set_global(
            w,
            b,
            h.index,
            h.generation,
            t.index,
            t.generation,
        ))
    }

    pub fn thread_set_error(&mut self, h: ThreadRef, v: Value) -> Told<()> {
        let [tag, low, high] = value(v);
        let (w, b) = self.heap.lent();
        answered(engine::thread_set_error(
            w,
            b,
            h.index,
            h.generation,
            tag,
            low,
            high,
        ))
    }

    pub fn thread_set_hook(&mut self, h: ThreadRef, v: Value) -> Told<()> {
        let [tag, low, high] = value(v);
        let (w, b) = self.heap.lent();
        answered(engine::thread_set_hook(
            w,
            b,
            h.index,
            h.generation,
            tag,
            low,
            high,
        ))
    }
}

/// Steps, settings and the audit.
///
/// # Errors
/// A refusal by its number.
impl Collector {
    /// Any of the six calls that make steps.
    pub fn step(&mut self, call: Call) -> Told<Step> {
        let (engine, heap) = (self.steps.as_mut(), &mut self.heap);
        told(|out| call.make(engine, heap, out)).map(step)
    }

    pub fn gc_singlestep(&mut self) -> Told<Step> {
        self.step(Call::Single)
    }

    pub fn gc_step(&mut self, budget: i64) -> Told<Step> {
        self.step(Call::Budgeted(budget))
    }

    pub fn gc_step_auto(&mut self) -> Told<Step> {
        self.step(Call::Automatic)
    }

    pub fn gc_check(&mut self) -> Told<Step> {
        self.step(Call::Check)
    }

    pub fn full_gc(&mut self) -> Told<Step> {
        self.step(Call::Full)
    }

    pub fn finish(&mut self, ok: bool) -> Told<Step> {
        self.step(Call::Finish(ok))
    }

    /// The pause before.
    pub fn set_pause(&mut self, percent: u32) -> Told<u32> {
        let (w, b) = self.heap.lent();
        let [before, high] = told(|out| engine::set_pause(w, b, percent, out))?;
        assert_eq!(high, 0, "a word and 0");
        Ok(before)
    }

    /// The step multiplier before.
    pub fn set_stepmul(&mut self, percent: u32) -> Told<u32> {
        let (w, b) = self.heap.lent();
        let [before, high] = told(|out| engine::set_stepmul(w, b, percent, out))?;
        assert_eq!(high, 0, "a word and 0");
        Ok(before)
    }

    /// The limit before; none is 2^64 - 1.
    pub fn set_limit(&mut self, limit: Option<u64>) -> Told<Option<u64>> {
        let limit = limit.unwrap_or(u64::MAX);
        let (w, b) = self.heap.lent();
        let [low, high] = told(|out| engine::set_limit(w, b, limit, out))?;
        Ok(Some(joined(low, high)).filter(|n| *n != u64::MAX))
    }

    pub fn audit(&self) -> Told<bool> {
        audit::audit(&self.heap)
    }
}
