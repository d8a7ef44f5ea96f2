//! A command of the script language given to a heap of ours.

use crate::collector::{Collector, Told};
use heap::ask::{self, Kind, Main, Slot, Table, Text, Thread};
use heap::{Refused, Words};
use oracle::{Answer, AnyRef, Colour, Command, Refusal};
use steps::engine::Call;

/// A handle names no occupied slot.
const STALE: Refused = Refused(2);

fn refused(Refused(n): Refused) -> Answer {
    Answer::Refused(Refusal(
        u8::try_from(n).expect("a refusal's number is small"),
    ))
}

fn told<T: Into<Answer>>(told: Told<T>) -> Answer {
    told.map_or_else(refused, Into::into)
}

fn number(read: ask::Answer) -> u64 {
    match read {
        ask::Answer::Number(n) => n,
        other => panic!("no number: {other:?}"),
    }
}

/// A value that is read.
fn read(read: ask::Asked) -> Answer {
    match read {
        Ok(ask::Answer::Value(v)) => Answer::Value(v),
        Ok(other) => panic!("no value: {other:?}"),
        Err(refusal) => refused(refusal),
    }
}

fn parts(handle: AnyRef) -> (Kind, u32, u32) {
    match handle {
        AnyRef::Str(r) => (Kind::Strings, r.index, r.generation),
        AnyRef::Table(r) => (Kind::Tables, r.index, r.generation),
        AnyRef::Func(r) => (Kind::Functions, r.index, r.generation),
        AnyRef::Upval(r) => (Kind::Upvalues, r.index, r.generation),
        AnyRef::Ud(r) => (Kind::Userdata, r.index, r.generation),
        AnyRef::Thread(r) => (Kind::Threads, r.index, r.generation),
    }
}

/// The colour of what the handle names, from the reads of its slot.
fn colour(heap: &Words, handle: AnyRef) -> Told<Colour> {
    let (kind, index, generation) = parts(handle);
    // A slot outside the arena is refused with 4.
    let stored = heap.arena(kind, Slot::Generation, index);
    let stored = stored.map_err(|_| STALE).map(number)?;
    let colour = number(heap.arena(kind, Slot::Colour, index)?);
    match colour {
        _ if stored != u64::from(generation) => Err(STALE),
        1 => Ok(Colour::White0),
        2 => Ok(Colour::White1),
        3 => Ok(Colour::Gray),
        4 => Ok(Colour::Black),
        _ => Err(STALE),
    }
}

fn bytes(heap: &Words, s: (u32, u32)) -> Told<Vec<u8>> {
    let length = number(heap.string(s, Text::Length, 0)?);
    let byte = |i: u64| {
        let i = u32::try_from(i).expect("a short string");
        let byte = number(heap.string(s, Text::Byte, i)?);
        Ok(u8::try_from(byte).expect("a byte"))
    };
    (0..length).map(byte).collect()
}

/// Gives a command to ours. None for those that read whole records or all: see
/// [`heap::compared_reads`].
pub fn give(ours: &mut Collector, command: &Command) -> Option<Answer> {
    if let Some(call) = Call::of(command) {
        return Some(told(ours.step(call)));
    }
    Some(match command {
        Command::MakeString { bytes } => told(ours.make_string(bytes)),
        Command::MakeTable { array, nodes } => told(ours.make_table(*array, *nodes)),
        Command::MakeProto { constants, nested } => told(ours.make_proto(constants, nested)),
        Command::MakeLuaClosure {
            proto,
            env,
            upvalues,
        } => told(ours.make_lua_closure(*proto, *env, upvalues)),
        Command::MakeRustClosure { env, values } => told(ours.make_rust_closure(*env, values)),
        Command::MakeOpenUpvalue {} => told(ours.make_open_upvalue()),
        Command::MakeClosedUpvalue { v } => told(ours.make_closed_upvalue(*v)),
        Command::MakeUserdata {} => told(ours.make_userdata()),
        Command::MakeThread { global, stack } => told(ours.make_thread(*global, *stack)),
        Command::TableSet { t, i, v } => told(ours.table_set(*t, *i, *v)),
        Command::TableSetNode { t, j, k, v } => told(ours.table_set_node(*t, *j, *k, *v)),
        Command::TableSetMeta { t, meta } => told(ours.table_set_meta(*t, *meta)),
        Command::UpvalueClose { u, v } => told(ours.upvalue_close(*u, *v)),
        Command::UpvalueSet { u, v } => told(ours.upvalue_set(*u, *v)),
        Command::UdSetMeta { d, meta } => told(ours.ud_set_meta(*d, *meta)),
        Command::UdSetEnv { d, env } => told(ours.ud_set_env(*d, *env)),
        Command::SetTypeMeta { kind, meta } => told(ours.set_type_meta(*kind, *meta)),
        Command::SetPause { percent } => told(ours.set_pause(*percent)),
        Command::SetStepmul { percent } => told(ours.set_stepmul(*percent)),
        Command::SetLimit { limit } => told(ours.set_limit(*limit)),
        Command::Audit {} => told(ours.audit()),
        other => return on_stacks(ours, other).or_else(|| reading(&ours.heap, other)),
    })
}

/// The commands of stacks and their lists.
fn on_stacks(ours: &mut Collector, command: &Command) -> Option<Answer> {
    Some(match command {
        Command::Push { v } => told(ours.push(*v)),
        Command::Pop {} => told(ours.pop()),
        Command::StackSet { i, v } => told(ours.stack_set(*i, *v)),
        Command::SetTop { top } => told(ours.set_top(*top)),
        Command::OpenPush { u } => told(ours.open_push(*u)),
        Command::OpenCut { count } => told(ours.open_cut(*count)),
        Command::SetFrame { frame, function } => told(ours.set_frame(*frame, *function)),
        Command::SetCi { ci } => told(ours.set_ci(*ci)),
        Command::SetError { v } => told(ours.set_error(*v)),
        Command::SetHook { v } => told(ours.set_hook(*v)),
        Command::ThreadPush { h, v } => told(ours.thread_push(*h, *v)),
        Command::ThreadPop { h } => told(ours.thread_pop(*h)),
        Command::ThreadSet { h, i, v } => told(ours.thread_set(*h, *i, *v)),
        Command::ThreadSetTop { h, top } => told(ours.thread_set_top(*h, *top)),
        Command::ThreadOpenPush { h, u } => told(ours.thread_open_push(*h, *u)),
        Command::ThreadOpenCut { h, count } => told(ours.thread_open_cut(*h, *count)),
        Command::ThreadSuspendedPush { h, u } => told(ours.thread_suspended_push(*h, *u)),
        Command::ThreadSuspendedCut { h, count } => told(ours.thread_suspended_cut(*h, *count)),
        Command::ThreadSetGlobal { h, t } => told(ours.thread_set_global(*h, *t)),
        Command::ThreadSetError { h, v } => told(ours.thread_set_error(*h, *v)),
        Command::ThreadSetHook { h, v } => told(ours.thread_set_hook(*h, *v)),
        _ => return None,
    })
}

/// The commands that read.
fn reading(heap: &Words, command: &Command) -> Option<Answer> {
    Some(match command {
        Command::Colour { handle } => told(colour(heap, *handle)),
        Command::StringBytes { s } => told(bytes(heap, (s.index, s.generation))),
        Command::TableGet { t, i } => read(heap.table((t.index, t.generation), Table::At, *i)),
        Command::TableKey { t, j } => read(heap.table((t.index, t.generation), Table::Key, *j)),
        Command::TableValue { t, j } => read(heap.table((t.index, t.generation), Table::Val, *j)),
        Command::ThreadGet { h, i } => {
            read(heap.thread((h.index, h.generation), Thread::Stack, *i))
        }
        Command::StackGet { i } => read(heap.main(Main::Stack, *i)),
        _ => return None,
    })
}
