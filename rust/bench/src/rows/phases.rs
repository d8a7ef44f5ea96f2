//! Single steps, phase by phase.

use crate::due::Due;
use crate::graph::{Graph, Kinds, State};
use crate::run::{Run, both};
use crate::side::{Side, registry};
use oracle::{Phase, Value};
use timing::timed;

/// Slots of the heaps whose propagation and sweep are timed.
pub const SLOTS: u32 = 4096;

/// What the source sweeps in a step.
const SWEPT: u32 = 80;

/// Nanoseconds of one of so many single steps.
fn singles<S: Side>(side: &mut S, steps: u32) -> f64 {
    timed(1, || (0..steps).for_each(|_| side.single())) / f64::from(steps)
}

/// Small heaps that are stepped one after another, for a step that is too short to be timed alone.
const HERD: u32 = 16;

/// A heap with every root there is but the main stack: nine type metatables.
fn rooted<S: Side>() -> S {
    let mut side = S::new([16, 16, 0, 0, 16, 0, 0, 32, 0, 1]);
    for kind in 0..9 {
        let table = side.make_table(0, 1);
        side.set_type_meta(kind, Some(table));
    }
    side
}

fn herd<S: Side>() -> Vec<S> {
    (0..HERD).map(|_| rooted()).collect()
}

/// One single step of each heap of a herd, taken to the place before it.
fn herded<S: Side>(herd: &mut [S], before: impl Fn(&mut S), after: Phase) -> f64 {
    const REPEATS: u32 = 20;
    let mut sum = 0.0;
    for _ in 0..REPEATS {
        herd.iter_mut().for_each(&before);
        sum += timed(1, || herd.iter_mut().for_each(S::single));
        assert!(herd.iter().all(|side| side.is_at(after)), "the wrong phase");
    }
    sum / f64::from(HERD * REPEATS)
}

fn roots<S: Side>(herd: &mut [S]) -> f64 {
    herded(herd, |side| side.go_to(Phase::Pause), Phase::Propagate)
}

fn end<S: Side>(herd: &mut [S]) -> f64 {
    herded(herd, |side| side.go_to(Phase::Finalize), Phase::Pause)
}

/// All of propagation after the roots: every table and the main thread.
fn propagate<S: Side>(graph: &mut Graph<S>) -> f64 {
    let side = &mut graph.side;
    side.go_to(Phase::Pause);
    side.single();
    let time = singles(side, SLOTS + 1);
    assert!(side.is_at(Phase::Propagate), "before the atomic step");
    side.single();
    assert!(side.is_at(Phase::SweepString), "after the atomic step");
    time
}

/// Objects of one kind behind the registry, as many as a table has places.
const OBJECTS: u32 = 64;

fn held<S: Side>(mut make: impl FnMut(&mut S) -> Value) -> S {
    let mut side = S::new([8, 8, OBJECTS, OBJECTS * 4, 0, OBJECTS, 1, 0, 0, 1]);
    side.make_proto(&S::values(&[Value::Bool(true); 4]));
    let list = side.make_table(OBJECTS, 0);
    side.table_set(registry(), 0, Value::Table(list));
    for i in 0..OBJECTS {
        let made = make(&mut side);
        side.table_set(list, i, made);
    }
    side
}

fn closures<S: Side>() -> S {
    held(|side: &mut S| {
        let upvalues = [(); 4].map(|()| side.make_closed_upvalue(Value::Bool(true)));
        Value::Function(side.make_lua_closure(0, &S::upvalues(&upvalues)))
    })
}

fn threads<S: Side>() -> S {
    held(|side: &mut S| {
        let thread = side.make_thread(registry(), 16);
        (0..16).for_each(|_| side.thread_push(thread, Value::Table(registry())));
        Value::Thread(thread)
    })
}

/// The steps before those objects: the roots, the registry, and the table that has them.
const BEFORE: u32 = 3;

fn propagate_held<S: Side>(side: &mut S) -> f64 {
    const REPEATS: u32 = 20;
    let mut sum = 0.0;
    for _ in 0..REPEATS {
        side.go_to(Phase::Pause);
        (0..BEFORE).for_each(|_| side.single());
        sum += singles(side, OBJECTS);
        assert!(side.is_at(Phase::Propagate), "global and main are left");
    }
    sum / f64::from(REPEATS)
}

/// The last step of propagation, which is the atomic one.
fn atomic<S: Side>(graph: &mut Graph<S>) -> f64 {
    let side = &mut graph.side;
    let to_propagate = |side: &mut S| {
        side.go_to(Phase::Pause);
        side.single();
    };
    to_propagate(side);
    let mut steps = 0;
    while side.is_at(Phase::Propagate) {
        side.single();
        steps += 1;
    }
    to_propagate(side);
    (1..steps).for_each(|_| side.single());
    let time = timed(1, || side.single());
    assert!(side.is_at(Phase::SweepString), "it was the atomic step");
    time
}

fn sweep_strings<S: Side>(graph: &mut Graph<S>) -> f64 {
    let side = &mut graph.side;
    side.go_to(Phase::Pause);
    side.go_to(Phase::SweepString);
    let time = singles(side, SLOTS.div_ceil(SWEPT));
    assert!(side.is_at(Phase::Sweep), "all strings and no more");
    time
}

/// The sweep of all tables.
fn sweep_tables<S: Side>(graph: &mut Graph<S>) -> f64 {
    graph.side.go_to(Phase::Pause);
    graph.renew();
    graph.side.go_to(Phase::Sweep);
    let time = singles(&mut graph.side, SLOTS.div_ceil(SWEPT));
    assert_eq!(graph.side.cursor(), (1, 0), "all tables and no more");
    time
}

pub fn rows(run: &Run) {
    let what = "the step at Pause: it marks both tables, nine type metatables and both names";
    both!(run, "Pause: the roots", what, S => herd::<S>(), roots);
    let what = "one table of 8 places and 8 nodes, of 4,096 of them";
    both!(run, "Propagate: a table", what, S => tables::<S>(State::Live), propagate);
    let what = "one Lua closure with four upvalues and four constants";
    both!(run, "Propagate: a closure", what, S => closures::<S>(), propagate_held);
    let what = "one thread with 16 values on its stack";
    both!(run, "Propagate: a thread", what, S => threads::<S>(), propagate_held);
    let what = "the whole atomic step of a heap with 4,096 live objects of every kind: each thread is \
                traversed again, each userdata looked at";
    both!(run, "Propagate: the atomic step", what, S => every::<S>(), atomic);
    let what = "80 slots of strings, all live";
    both!(run, "SweepString, live", what, S => every::<S>(), sweep_strings);
    let what = "80 slots of tables, all live";
    both!(run, "Sweep, live", what, S => tables::<S>(State::Live), sweep_tables);
    let what = "80 slots of tables of 8 places and 8 nodes, all dead: they are freed";
    both!(run, "Sweep, dead", what, S => tables::<S>(State::Dead), sweep_tables);
    let what = "a finalizer handed out and finished with success: two calls of ours, one of the \
                source, whose method is empty";
    both!(run, "Finalize: one finalizer", what, S => Due::<S>::new(512), Due::singles);
    let what = "the step at Finalize with an empty queue, which ends the cycle";
    both!(run, "Finalize: the end", what, S => herd::<S>(), end);
}

pub fn tables<S: Side>(state: State) -> Graph<S> {
    Graph::new(SLOTS, Kinds::Tables, state)
}

fn every<S: Side>() -> Graph<S> {
    Graph::new(SLOTS, Kinds::All, State::Live)
}
