//! Every call of a heap, whatever it answers.

use collector::{
    FunctionRef, Heap, Kind, List, Outcome, Proto, Refusal, StringRef, TableRef, ThreadRef, Type,
    UpvalueRef, UserdataRef, Value,
};

/// A handle of each kind, of one index and generation, and a place to ask for.
#[derive(Clone, Copy)]
pub struct Given {
    pub index: u32,
    pub generation: u32,
    pub place: u32,
}

impl Given {
    fn string(self) -> StringRef {
        StringRef::new(self.index, self.generation)
    }

    fn table(self) -> TableRef {
        TableRef::new(self.index, self.generation)
    }

    fn function(self) -> FunctionRef {
        FunctionRef::new(self.index, self.generation)
    }

    fn upvalue(self) -> UpvalueRef {
        UpvalueRef::new(self.index, self.generation)
    }

    fn userdata(self) -> UserdataRef {
        UserdataRef::new(self.index, self.generation)
    }

    fn thread(self) -> ThreadRef {
        ThreadRef::new(self.index, self.generation)
    }

    fn proto(self) -> Proto {
        Proto::new(self.index)
    }
}

/// Makes every call; the reads come first and last.
pub fn everything(heap: &mut Heap, given: Given) {
    reads(heap, given);
    makes(heap, given);
    stores(heap, given);
    on_main(heap, given);
    on_thread(heap, given);
    steps(heap);
    reads(heap, given);
}

fn reads(heap: &Heap, given: Given) {
    of_header(heap);
    of_slots(heap, given);
    of_main(heap, given.place);
    of_objects(heap, given);
    of_runs(heap, given);
}

fn of_header(heap: &Heap) {
    let _ = (heap.sizes(), heap.audit(), heap.proto_count(), heap.limit());
    let _ = (heap.pause(), heap.stepmul(), heap.next_creation());
    let _ = (heap.phase(), heap.white(), heap.cursor(), heap.total());
    let _ = (heap.peak(), heap.estimate(), heap.threshold(), heap.debt());
    let _ = (heap.interrupted(), heap.remaining_budget());
    let _ = (heap.finalizer_out(), heap.global(), heap.registry());
    let _ = (
        heap.mode_name(),
        heap.gc_name(),
        heap.type_metatable(Type::LightUserdata),
    );
    assert!(!format!("{heap:?}").is_empty());
}

fn of_slots(heap: &Heap, given: Given) {
    for list in [List::Gray, List::Grayagain, List::Weak, List::Queue] {
        let _ = (heap.list_len(list), heap.list_item(list, given.place));
    }
    for kind in Kind::ALL {
        let _ = (
            heap.free_head(kind),
            heap.fresh_index(kind),
            heap.occupied(kind),
        );
        let _ = heap.slot_generation(kind, given.index);
        let _ = (
            heap.slot_colour(kind, given.index),
            heap.slot_link(kind, given.index),
        );
    }
    let _ = (heap.is_live(given.string()), heap.colour(given.upvalue()));
}

fn of_main(heap: &Heap, place: u32) {
    let _ = (
        heap.top(),
        heap.open_count(),
        heap.current_frame(),
        heap.error(),
        heap.hook(),
    );
    let _ = (
        heap.stack_get(place),
        heap.open_get(place),
        heap.frame(place),
    );
}

fn of_objects(heap: &Heap, given: Given) {
    let (text, place) = (given.string(), given.place);
    let _ = (
        heap.string_len(text),
        heap.string_byte(text, place),
        heap.string_bytes(text),
    );
    let table = given.table();
    let _ = (heap.table_metatable(table), heap.table_array_len(table));
    let _ = (heap.table_node_count(table), heap.table_get(table, place));
    let _ = (heap.table_key(table, place), heap.table_value(table, place));
    let userdata = given.userdata();
    let _ = (
        heap.userdata_metatable(userdata),
        heap.userdata_env(userdata),
    );
    let _ = (
        heap.userdata_creation(userdata),
        heap.userdata_is_finalized(userdata),
    );
}

fn of_runs(heap: &Heap, given: Given) {
    let (function, place) = (given.function(), given.place);
    let _ = (heap.closure_is_rust(function), heap.closure_env(function));
    let _ = (heap.closure_proto(function), heap.closure_len(function));
    let _ = (
        heap.closure_upvalue(function, place),
        heap.closure_value(function, place),
    );
    let _ = (
        heap.upvalue_is_closed(given.upvalue()),
        heap.upvalue_value(given.upvalue()),
    );
    let thread = given.thread();
    let _ = (
        heap.thread_global(thread),
        heap.thread_hook(thread),
        heap.thread_error(thread),
    );
    let _ = (heap.thread_stack_len(thread), heap.thread_top(thread));
    let _ = (
        heap.thread_open_count(thread),
        heap.thread_suspended_count(thread),
    );
    let _ = (
        heap.thread_open_get(thread, place),
        heap.thread_suspended_get(thread, place),
    );
    let _ = heap.thread_stack_get(thread, place);
    let proto = given.proto();
    let _ = (
        heap.proto_constant_count(proto),
        heap.proto_nested_count(proto),
    );
    let _ = (heap.proto_parent(proto), heap.proto_constant(proto, place));
    let _ = heap.proto_nested(proto, place);
}

fn makes(heap: &mut Heap, given: Given) {
    let value = Value::Table(given.table());
    let _ = (heap.make_string(b"k"), heap.make_table(given.place, 4));
    let _ = (
        heap.make_proto(&[value], &[given.proto()]),
        heap.make_proto(&[], &[]),
    );
    let _ = heap.make_lua_closure(given.proto(), given.table(), &[given.upvalue()]);
    let _ = heap.make_rust_closure(given.table(), &[value]);
    let _ = (heap.make_open_upvalue(), heap.make_closed_upvalue(value));
    let _ = (
        heap.make_userdata(),
        heap.make_thread(given.table(), given.place),
    );
}

fn stores(heap: &mut Heap, given: Given) {
    let (table, place) = (given.table(), given.place);
    let _ = heap.table_set(table, place, given.userdata());
    let _ = heap.table_set_node(table, place, given.function(), given.string());
    let _ = heap.table_set_metatable(table, table);
    let _ = heap.upvalue_close(given.upvalue(), given.thread());
    let _ = heap.upvalue_set(given.upvalue(), given.table());
    let _ = heap.userdata_set_metatable(given.userdata(), table);
    let _ = heap.userdata_set_env(given.userdata(), None);
    let _ = heap.set_type_metatable(Type::Table, table);
    let _ = (
        heap.set_pause(place),
        heap.set_stepmul(place),
        heap.set_limit(u64::from(place)),
    );
}

fn on_main(heap: &mut Heap, given: Given) {
    let (value, place) = (given.table(), given.place);
    let _ = (heap.push(value), heap.push(value), heap.pop());
    let _ = (heap.stack_set(place, value), heap.set_top(place));
    let _ = (heap.open_push(given.upvalue()), heap.open_cut(place));
    let _ = (heap.set_frame(place, place), heap.set_current_frame(place));
    let _ = (heap.set_error(value), heap.set_hook(given.function()));
}

fn on_thread(heap: &mut Heap, given: Given) {
    let (thread, upvalue, place) = (given.thread(), given.upvalue(), given.place);
    let _ = (heap.thread_push(thread, thread), heap.thread_pop(thread));
    let _ = (
        heap.thread_stack_set(thread, place, true),
        heap.thread_set_top(thread, place),
    );
    let _ = (
        heap.thread_open_push(thread, upvalue),
        heap.thread_open_cut(thread, place),
    );
    let _ = heap.thread_suspended_push(thread, upvalue);
    let _ = heap.thread_suspended_cut(thread, place);
    let _ = heap.thread_set_global(thread, given.table());
    let _ = heap.thread_set_error(thread, given.string());
    let _ = heap.thread_set_hook(thread, given.function());
}

/// A step and its finalizers; the first of them fails.
fn stepped(heap: &mut Heap, step: fn(&mut Heap) -> Result<collector::Step<'_>, Refusal>) {
    let _ = step(heap);
    let _: Result<Outcome, Refusal> = step(heap).and_then(|s| s.run_finalizers(|_| ()));
}

fn steps(heap: &mut Heap) {
    let _ = heap.reclaim_finalizer();
    stepped(heap, Heap::single_step);
    stepped(heap, |heap| heap.step(300));
    stepped(heap, Heap::auto_step);
    stepped(heap, Heap::check);
    stepped(heap, Heap::collect);
}
