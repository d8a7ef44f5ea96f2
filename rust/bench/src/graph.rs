//! The heaps that are collected: a graph of tables with 8 array places and 8 nodes, and with it, if
//! asked for, as many objects of every other kind. graph.lua builds the same tables in Lua.
//!
//! Of a list of tables, the i-th holds the next eight of a tree in its array and any eight in its
//! nodes, whose keys are numbers; the first two reach all. What is live is one such list, which begins
//! with the global table and the registry; what is dead is another. Live and dead ones are made in
//! turns, so that they lie mixed.

use crate::side::{Side, global, registry};
use oracle::{TableRef, Value};
use timing::timed;

/// How much of a heap is dead.
#[derive(Clone, Copy, Debug, PartialEq, Eq)]
pub enum State {
    Live,
    Half,
    Dead,
}

impl State {
    pub const ALL: [Self; 3] = [Self::Live, Self::Half, Self::Dead];

    pub fn name(self) -> &'static str {
        match self {
            Self::Live => "all live",
            Self::Half => "half dead",
            Self::Dead => "all dead",
        }
    }

    fn is_dead(self, number: u32) -> bool {
        match self {
            Self::Live => false,
            Self::Half => number % 2 == 1,
            Self::Dead => true,
        }
    }
}

/// What a heap is full of.
#[derive(Clone, Copy, Debug, PartialEq, Eq)]
pub enum Kinds {
    Tables,
    /// With each table a string, a closure with its upvalue, a userdata and a thread.
    All,
}

/// A table and what stands in its first nodes.
struct Bundle {
    table: TableRef,
    others: Vec<Value>,
}

impl Bundle {
    fn of(table: TableRef) -> Self {
        let others = Vec::new();
        Self { table, others }
    }

    /// A new one, without its links to other tables.
    fn make<S: Side>(side: &mut S, kinds: Kinds, number: u32) -> Self {
        let table = side.make_table(8, 8);
        match kinds {
            Kinds::Tables => Self::of(table),
            Kinds::All => {
                let others = others(side, number);
                Self { table, others }
            }
        }
    }
}

/// A string, a closure whose upvalue holds the string, a userdata, and a thread with the closure on
/// its stack.
fn others<S: Side>(side: &mut S, number: u32) -> Vec<Value> {
    let text = Value::Str(side.make_string(S::text(&number.to_be_bytes())));
    let upvalue = side.make_closed_upvalue(text);
    let closure = Value::Function(side.make_lua_closure(0, &S::upvalues(&[upvalue])));
    let userdata = Value::Userdata(side.make_userdata());
    let thread = side.make_thread(global(), 8);
    side.thread_push(thread, closure);
    vec![text, closure, userdata, Value::Thread(thread)]
}

/// Links a list of tables.
fn link<S: Side>(side: &mut S, list: &[Bundle]) {
    let table = |i: usize| Value::Table(list[i % list.len()].table);
    for (i, bundle) in list.iter().enumerate() {
        for j in 0..8 {
            let any = (8 * i + j) * 40503 % 65536 / 16;
            let held = bundle.others.get(j).copied().unwrap_or(table(any));
            let (j, next) = (j as u32, table(8 * i + j + 2));
            side.table_set(bundle.table, j, next);
            side.table_set_node(bundle.table, j, Value::number(j.into()), held);
        }
    }
}

/// A heap with so many slots in each arena that it uses.
pub struct Graph<S> {
    pub side: S,
    kinds: Kinds,
    /// The numbers of the dead ones, which are made again before each collection.
    dead: Vec<u32>,
    /// How many slots are occupied once those are gone.
    kept: u32,
}

impl<S: Side> Graph<S> {
    pub fn new(slots: u32, kinds: Kinds, state: State) -> Self {
        let others = if kinds == Kinds::All { slots } else { 0 };
        let strings = others.max(2);
        let mut side = S::new([strings, slots, others, others, others, others, 1, 0, 0, 1]);
        side.make_proto(&S::values(&[]));
        let (mut live, mut dead) = (
            vec![Bundle::of(global()), Bundle::of(registry())],
            Vec::new(),
        );
        for number in 2..slots {
            let made = Bundle::make(&mut side, kinds, number);
            if state.is_dead(number) {
                dead.push(number);
            } else {
                live.push(made);
            }
        }
        link(&mut side, &live);
        side.full();
        let kept = side.occupied();
        let mut graph = Self {
            side,
            kinds,
            dead,
            kept,
        };
        // Once more, so that the free slots are already in the order in which a collection leaves them.
        graph.collect(1);
        graph
    }

    /// Makes the dead ones again.
    pub fn renew(&mut self) {
        let (side, kinds) = (&mut self.side, self.kinds);
        let make = |number: &u32| Bundle::make(side, kinds, *number);
        let made: Vec<Bundle> = self.dead.iter().map(make).collect();
        link(&mut self.side, &made);
    }

    /// Nanoseconds of one full collection; the dead ones are made again before each.
    pub fn collect(&mut self, repeats: u32) -> f64 {
        let mut sum = 0.0;
        for _ in 0..repeats {
            self.renew();
            sum += timed(1, || self.side.full());
        }
        assert_eq!(self.side.occupied(), self.kept, "what is live is left");
        sum / f64::from(repeats)
    }
}
