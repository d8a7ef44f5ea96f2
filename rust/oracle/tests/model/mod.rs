//! Document 01's "Followed links" and "The atomic phase" as sets over a snapshot, written from the
//! document alone: what a full collection that starts at Pause must leave.

use oracle::{
    AnyRef, ClosureRecord, Colour, Slots, Snapshot, StrRef, TableRecord, TableRef, ThreadRef,
    UdRef, UpvalRecord, Value,
};
use std::collections::BTreeSet;

const MODE: Value = Value::Str(StrRef::new(0, 0));
const GC: Value = Value::Str(StrRef::new(1, 0));

/// A heap at Pause and what was marked in it so far.
pub struct Model<'a> {
    heap: &'a Snapshot,
    marked: BTreeSet<AnyRef>,
    /// Marked, but its links are not followed yet.
    waiting: Vec<AnyRef>,
}

fn record<R>(slots: &Slots<R>, index: u32, generation: u32) -> Option<&R> {
    let slot = slots.list.get(index as usize)?;
    slot.record
        .as_ref()
        .filter(|_| slot.generation == generation)
}

fn handle(value: Value) -> Option<AnyRef> {
    match value {
        Value::Nil | Value::Bool(_) | Value::Number(_) | Value::Light(_) => None,
        Value::Str(r) => Some(r.into()),
        Value::Table(r) => Some(r.into()),
        Value::Function(r) => Some(r.into()),
        Value::Userdata(r) => Some(r.into()),
        Value::Thread(r) => Some(r.into()),
    }
}

/// The value under a key, in node order.
fn lookup(table: &TableRecord, key: Value) -> Value {
    let node = table.nodes.iter().find(|(k, _)| *k == key);
    node.map_or(Value::Nil, |(_, v)| *v)
}

impl<'a> Model<'a> {
    /// Marks what is reached from the roots.
    pub fn from_roots(heap: &'a Snapshot) -> Self {
        let mut model = Self {
            heap,
            marked: BTreeSet::new(),
            waiting: Vec::new(),
        };
        let main = &heap.main;
        model.mark(main.global);
        model.mark(main.registry);
        main.type_metatables
            .iter()
            .flatten()
            .for_each(|t| model.mark(*t));
        model.values([MODE, GC, main.error, main.hook]);
        model.values(main.stack[..main.top].iter().copied());
        main.open.iter().for_each(|u| model.mark(*u));
        let functions = main.frames[..=main.ci].iter();
        model.values(functions.filter_map(|f| main.stack.get(*f).copied()));
        model.follow_all();
        model
    }

    fn table(&self, t: TableRef) -> Option<&'a TableRecord> {
        record(&self.heap.tables, t.index, t.generation)
    }

    fn is_named(&self, r: AnyRef) -> bool {
        let heap = self.heap;
        match r {
            AnyRef::Str(r) => record(&heap.strings, r.index, r.generation).is_some(),
            AnyRef::Table(r) => record(&heap.tables, r.index, r.generation).is_some(),
            AnyRef::Func(r) => record(&heap.closures, r.index, r.generation).is_some(),
            AnyRef::Upval(r) => record(&heap.upvalues, r.index, r.generation).is_some(),
            AnyRef::Ud(r) => record(&heap.userdata, r.index, r.generation).is_some(),
            AnyRef::Thread(r) => record(&heap.threads, r.index, r.generation).is_some(),
        }
    }

    fn mark(&mut self, r: impl Into<AnyRef>) {
        let r = r.into();
        if self.is_named(r) && self.marked.insert(r) {
            self.waiting.push(r);
        }
    }

    fn values(&mut self, values: impl IntoIterator<Item = Value>) {
        values
            .into_iter()
            .filter_map(handle)
            .for_each(|r| self.mark(r));
    }

    fn follow_all(&mut self) {
        while let Some(r) = self.waiting.pop() {
            self.follow(r);
        }
    }

    fn follow(&mut self, r: AnyRef) {
        let heap = self.heap;
        match r {
            AnyRef::Str(_) => {}
            AnyRef::Table(t) => self.follow_table(t),
            AnyRef::Func(f) => match record(&heap.closures, f.index, f.generation) {
                Some(ClosureRecord::Lua {
                    proto,
                    env,
                    upvalues,
                }) => {
                    self.mark(*env);
                    upvalues.iter().for_each(|u| self.mark(*u));
                    self.follow_proto(*proto);
                }
                Some(ClosureRecord::Rust { env, values }) => {
                    env.iter().for_each(|t| self.mark(*t));
                    self.values(values.iter().copied());
                }
                None => {}
            },
            AnyRef::Upval(u) => {
                let upvalue = record(&heap.upvalues, u.index, u.generation);
                if let Some(UpvalRecord::Closed(value)) = upvalue {
                    self.values([*value]);
                }
            }
            AnyRef::Ud(d) => self.follow_userdata(d),
            AnyRef::Thread(h) => self.follow_thread(h),
        }
    }

    /// Weak keys and weak values.
    fn mode(&self, table: &TableRecord) -> (bool, bool) {
        let meta = table.metatable.and_then(|t| self.table(t));
        let bytes = match meta.map(|t| lookup(t, MODE)) {
            Some(Value::Str(s)) => record(&self.heap.strings, s.index, s.generation),
            _ => None,
        };
        bytes.map_or((false, false), |b| (b.contains(&b'k'), b.contains(&b'v')))
    }

    fn follow_table(&mut self, t: TableRef) {
        let Some(table) = self.table(t) else { return };
        table.metatable.iter().for_each(|m| self.mark(*m));
        let (keys, values) = self.mode(table);
        if !values {
            self.values(table.array.iter().copied());
        }
        for (k, v) in &table.nodes {
            if *k != Value::Nil && *v != Value::Nil {
                self.values((!keys).then_some(*k));
                self.values((!values).then_some(*v));
            }
        }
    }

    fn follow_proto(&mut self, number: u32) {
        let proto = &self.heap.prototypes[number as usize];
        self.values(proto.constants.iter().copied());
        proto.nested.iter().for_each(|n| self.follow_proto(*n));
    }

    fn follow_userdata(&mut self, d: UdRef) {
        if let Some(userdata) = record(&self.heap.userdata, d.index, d.generation) {
            userdata.metatable.iter().for_each(|t| self.mark(*t));
            userdata.env.iter().for_each(|t| self.mark(*t));
        }
    }

    fn follow_thread(&mut self, h: ThreadRef) {
        if let Some(thread) = record(&self.heap.threads, h.index, h.generation) {
            self.mark(thread.global);
            self.values([thread.hook]);
            self.values(thread.stack[..thread.top].iter().copied());
            thread.open.iter().for_each(|u| self.mark(*u));
            thread.suspended.iter().for_each(|u| self.mark(*u));
        }
    }

    /// The userdata that are due, by rising creation number; marks them and what they reach.
    pub fn separate(&mut self) -> Vec<UdRef> {
        let mut due = Vec::new();
        for (i, slot) in self.heap.userdata.list.iter().enumerate() {
            let d = UdRef::new(i as u32, slot.generation);
            let Some(userdata) = &slot.record else {
                continue;
            };
            let meta = userdata.metatable.and_then(|t| self.table(t));
            let has_gc = meta.is_some_and(|t| lookup(t, GC) != Value::Nil);
            if has_gc && !userdata.finalized && !self.marked.contains(&d.into()) {
                due.push((userdata.number, d));
            }
        }
        due.sort();
        due.iter().for_each(|(_, d)| self.mark(*d));
        self.follow_all();
        due.into_iter().map(|(_, d)| d).collect()
    }

    pub fn marked_threads(&self) -> BTreeSet<ThreadRef> {
        let one = |r: &AnyRef| match r {
            AnyRef::Thread(h) => Some(*h),
            _ => None,
        };
        self.marked.iter().filter_map(one).collect()
    }

    /// Is the value a table, function, userdata or thread that was not marked?
    fn is_dead(&self, value: Value, finalized: Option<&[UdRef]>) -> bool {
        let Some(r) = handle(value) else { return false };
        if matches!(r, AnyRef::Str(_)) || !self.is_named(r) {
            return false;
        }
        let done = |d: UdRef| {
            let before = record(&self.heap.userdata, d.index, d.generation);
            let due = finalized.is_some_and(|due| due.contains(&d));
            finalized.is_some() && (due || before.is_some_and(|u| u.finalized))
        };
        !self.marked.contains(&r) || matches!(r, AnyRef::Ud(d) if done(d))
    }

    /// Clears the marked weak tables of `after` and keeps their strings.
    pub fn clear(&mut self, after: &mut Snapshot, due: &[UdRef]) {
        for i in 0..self.heap.tables.list.len() {
            let t = TableRef::new(i as u32, self.heap.tables.list[i].generation);
            let Some(table) = self.table(t) else { continue };
            let (keys, values) = self.mode(table);
            if !(keys || values) || !self.marked.contains(&t.into()) {
                continue;
            }
            let Some(cleared) = &mut after.tables.list[i].record else {
                continue;
            };
            for v in cleared.array.iter_mut() {
                if values && self.is_dead(*v, Some(due)) {
                    *v = Value::Nil;
                }
            }
            for (k, v) in cleared.nodes.iter_mut().filter(|(k, _)| *k != Value::Nil) {
                let dead_value = values && self.is_dead(*v, Some(due));
                if dead_value || (keys && self.is_dead(*k, None)) {
                    *v = Value::Nil;
                }
            }
            let nodes = table.nodes.iter().filter(|(k, _)| *k != Value::Nil);
            let held = table.array.iter().chain(nodes.flat_map(|(k, v)| [k, v]));
            let strings = held.filter(|v| matches!(v, Value::Str(_))).copied();
            self.values(strings);
        }
        self.waiting.clear();
    }

    /// Frees the slots of one arena that were not marked and paints the others.
    pub fn sweep<R>(&self, slots: &mut Slots<R>, white: Colour, of: fn(u32, u32) -> AnyRef) -> u32 {
        let mut freed = 0;
        for (i, slot) in slots.list.iter_mut().enumerate() {
            if slot.record.is_none() {
                continue;
            }
            if self.marked.contains(&of(i as u32, slot.generation)) {
                slot.colour = white;
                continue;
            }
            slot.generation = slot.generation.wrapping_add(1);
            slot.colour = Colour::Free;
            slot.record = None;
            slots.chain.insert(0, i as u32);
            freed += 1;
        }
        slots.occupied -= freed;
        freed
    }
}

/// The method that a queued userdata has now.
pub fn method(heap: &Snapshot, d: UdRef) -> Value {
    let userdata = record(&heap.userdata, d.index, d.generation);
    let meta = userdata.and_then(|u| u.metatable);
    let table = meta.and_then(|t| record(&heap.tables, t.index, t.generation));
    table.map_or(Value::Nil, |t| lookup(t, GC))
}
