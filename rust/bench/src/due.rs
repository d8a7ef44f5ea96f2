//! A heap whose userdata have a `__gc` method, and die.

use crate::side::{Side, global, name_gc};
use oracle::{Phase, TableRef, UdRef, Value};
use timing::timed;

/// How many are held by one table.
const PLACES: u32 = 64;

pub struct Due<S> {
    pub side: S,
    meta: TableRef,
    /// How many userdata there are.
    count: u32,
}

impl<S: Side> Due<S> {
    /// No userdata is there, but each slot had one: from now on those made later get lower slots.
    pub fn new(count: u32) -> Self {
        let lists = count / PLACES;
        // The stack has room for what the source pushes for a finalizer.
        let mut side = S::new([8, 8 + lists, 1, 0, count, 0, 0, 8, 0, 1]);
        let meta = side.make_table(0, 1);
        let method = side.make_rust_closure(&S::values(&[]));
        side.table_set_node(meta, 0, name_gc(), Value::Function(method));
        side.push(Value::Table(meta));
        let mut due = Self { side, meta, count };
        due.full();
        due.side.full();
        due
    }

    fn make(&mut self) -> UdRef {
        let made = self.side.make_userdata();
        self.side.ud_set_meta(made, Some(self.meta));
        made
    }

    /// Takes the finalized ones away, and makes as many that are due.
    fn renew(&mut self) {
        self.side.full();
        (0..self.count).for_each(|_| _ = self.make());
    }

    /// Makes all, at most 512, and holds them by the eight places of the global table: none is due.
    pub fn hold(&mut self) {
        for list in 0..self.count / PLACES {
            let held = self.side.make_table(PLACES, 0);
            self.side.table_set(global(), list, Value::Table(held));
            for i in 0..PLACES {
                let made = self.make();
                self.side.table_set(held, i, Value::Userdata(made));
            }
        }
    }

    /// Nanoseconds of a full collection in which all are due.
    pub fn full(&mut self) -> f64 {
        self.renew();
        timed(1, || self.side.full())
    }

    /// Nanoseconds of one finalizer, by single steps.
    pub fn singles(&mut self) -> f64 {
        self.renew();
        self.side.go_to(Phase::Finalize);
        let time = timed(1, || (0..self.count).for_each(|_| self.side.single()));
        assert!(self.side.is_at(Phase::Finalize), "the end is next");
        self.side.go_to(Phase::Pause);
        time / f64::from(self.count)
    }
}
