//! Heaps transcribed, held to words that were written down by hand from docs/LAYOUT.md.

use heap::words::{Waiting, transcribed};
use oracle::{
    Answer, Command, Driver, FuncRef, Oracle, Phase, Sizes, StrRef, TableRef, ThreadRef, UdRef,
    UpvalRef, Value,
};
use std::cell::RefCell;
use std::rc::Rc;

fn heap(sizes: [u32; 10]) -> Oracle {
    Oracle::new(Sizes::from(sizes)).expect("sizes in range")
}

fn words(heap: &Oracle) -> Vec<u32> {
    transcribed(&heap.snapshot(), Waiting::default()).words
}

/// Words from one place on.
type Rows<'a> = &'a [(usize, &'a [u32])];

/// Exactly these words stand there, and every other one is 0.
fn holds(words: &[u32], rows: Rows) {
    let mut wanted = vec![0; words.len()];
    for (place, row) in rows {
        wanted[*place..][..row.len()].copy_from_slice(row);
    }
    for (k, (word, want)) in words.iter().zip(&wanted).enumerate() {
        assert_eq!(word, want, "word {k}");
    }
}

/// These words stand there, whatever the others are.
fn holds_these(words: &[u32], rows: Rows) {
    for (place, row) in rows {
        assert_eq!(words[*place..][..row.len()], **row, "from word {place}");
    }
}

/// One object of each kind and a value of each kind, at the first step of a collection.
fn full_heap() -> Oracle {
    let mut h = heap([3, 3, 2, 2, 2, 1, 2, 2, 1, 2]);
    let (s2, t0, t1, t2) = (
        StrRef::new(2, 0),
        TableRef::new(0, 0),
        TableRef::new(1, 0),
        TableRef::new(2, 0),
    );
    let (u0, u1, f0, f1) = (
        UpvalRef::new(0, 0),
        UpvalRef::new(1, 0),
        FuncRef::new(0, 0),
        FuncRef::new(1, 0),
    );
    let (d0, d1, h0) = (UdRef::new(0, 0), UdRef::new(1, 0), ThreadRef::new(0, 0));
    assert_eq!(h.make_string(b"kv".to_vec()), Ok(s2));
    assert_eq!(h.make_table(1, 2), Ok(t2));
    assert_eq!(h.table_set(t2, 0, Value::Bool(true)), Ok(()));
    let (key, light) = (Value::number(1.5), Value::Light(0x1_0000_0002));
    assert_eq!(h.table_set_node(t2, 1, key, light), Ok(()));
    assert_eq!(h.table_set_meta(t2, Some(t1)), Ok(()));
    assert_eq!(h.make_proto(vec![Value::Str(s2)], vec![]), Ok(0));
    let constants = vec![Value::Nil, Value::Bool(false), Value::Bool(true)];
    assert_eq!(h.make_proto(constants, vec![0]), Ok(1));
    assert_eq!(h.make_open_upvalue(), Ok(u0));
    assert_eq!(h.make_closed_upvalue(Value::Table(t2)), Ok(u1));
    assert_eq!(h.make_lua_closure(1, t0, vec![u1, u0]), Ok(f0));
    let values = vec![Value::Nil, Value::Function(f0)];
    assert_eq!(h.make_rust_closure(Some(t2), values), Ok(f1));
    assert_eq!((h.make_userdata(), h.make_userdata()), (Ok(d0), Ok(d1)));
    assert_eq!(h.ud_set_meta(d1, Some(t2)), Ok(()));
    assert_eq!(h.ud_set_env(d1, Some(t0)), Ok(()));
    assert_eq!(h.make_thread(t1, 2), Ok(h0));
    assert_eq!(h.thread_push(h0, Value::Thread(h0)), Ok(()));
    assert_eq!(h.thread_set(h0, 1, Value::Bool(true)), Ok(()));
    assert_eq!(h.thread_open_push(h0, u0), Ok(()));
    assert_eq!(h.thread_suspended_push(h0, u1), Ok(()));
    assert_eq!(h.thread_set_hook(h0, Value::Function(f1)), Ok(()));
    assert_eq!(h.thread_set_error(h0, Value::Userdata(d0)), Ok(()));
    assert_eq!(h.push(Value::Table(t2)), Ok(()));
    assert_eq!(h.push(Value::Userdata(d1)), Ok(()));
    assert_eq!(h.pop(), Ok(Value::Userdata(d1)));
    assert_eq!(h.open_push(u1), Ok(()));
    assert_eq!(h.set_frame(1, 256), Ok(()));
    assert_eq!(h.set_ci(1), Ok(()));
    assert_eq!(h.set_error(Value::Str(s2)), Ok(()));
    assert_eq!(h.set_hook(Value::Thread(h0)), Ok(()));
    // Of tables and of light userdata, as the source numbers them.
    assert_eq!(h.set_type_meta(7, Some(t1)), Ok(()));
    assert_eq!(h.set_type_meta(8, Some(t2)), Ok(()));
    h.set_limit(Some(0x3_0000_0004));
    h.set_pause(150);
    h.set_stepmul(300);
    h.gc_singlestep();
    h
}

#[test]
fn one_of_each_kind() {
    let total = 3 * 48 + 3 * 64 + 2 * 48 + 2 * 24 + 2 * 48 + 256;
    let whole = transcribed(&full_heap().snapshot(), Waiting::default());
    assert_eq!((whole.words.len(), whole.bytes.len()), (2473, 192));
    holds(
        &whole.words,
        &[
            (0, &[3, 3, 2, 2, 2, 1, 2, 2, 1, 2]),
            // Prototypes used, main top, open count, ci, error, hook.
            (10, &[2, 1, 1, 1, 4, 2, 0, 8, 0, 0]),
            // Global, registry, both names; metatables of tables (7) and light userdata (8).
            (20, &[1, 0, 2, 0, 1, 0, 2, 0]),
            (28 + 2 * 7, &[2, 0]),
            (28 + 2 * 8, &[3, 0]),
            // Limit, pause, stepmul, next creation number.
            (46, &[4, 3, 150, 300, 2, 0]),
            // Propagate, the first white; total, peak, estimate, threshold, debt.
            (53, &[1, 1, 0, 0, total, total, 0, 65536, 0, 0, 1 << 31]),
            // Four gray items; head, fresh index and count of each arena.
            (69, &[4]),
            (73, &[0, 3, 3, 0, 3, 3, 0, 2, 2, 0, 2, 2, 0, 2, 2, 0, 1, 1]),
            // Colours and extents. Names are black, the other string is white.
            (91, &[4, 4, 1]),
            (100, &[1, 1, 1]),
            (103, &[3, 3, 3]),
            (112, &[76, 76, 19]),
            (115, &[1, 1]),
            (121, &[9, 11]),
            (123, &[1, 1]),
            (129, &[4, 4]),
            (131, &[1, 1]),
            (137, &[7, 7]),
            (139, &[1]),
            (142, &[82]),
            // Gray: main thread, global, registry, the type metatable.
            (143, &[9, 0, 0, 5, 0, 0, 5, 1, 0, 5, 2, 0]),
            // Prototype 0: one constant, nested in 1. Prototype 1: three constants, nests 0.
            (206, &[1, 0, 2, 4, 2, 0]),
            (265, &[3, 1, 0, 0, 0, 0, 1, 0, 0, 1, 1, 0]),
            // Main stack with a popped value above top, open list, frames.
            (324, &[5, 2, 0, 7, 1, 0]),
            (330, &[1, 0, 0, 256]),
            // Lengths of strings.
            (334, &[6, 4, 2]),
            // Tables 0 and 1 are empty; table 2 has metatable, array 1, nodes 2.
            (337 + 2, &[8, 8]),
            (337 + 580 + 2, &[8, 8]),
            (337 + 1160, &[2, 0, 1, 2, 1, 1, 0]),
            (337 + 1160 + 13, &[3, 0, 0x3ff8_0000, 2, 2, 1]),
            // A Lua closure: env, prototype 1, upvalues u1 and u0. A Rust closure: nil and f0.
            (2077, &[0, 1, 0, 1, 2, 1, 0, 0, 0]),
            (2130, &[1, 3, 0, 0, 2, 0, 0, 0, 6, 0, 0]),
            // An open and a closed upvalue.
            (2183, &[0, 0, 0, 0, 1, 5, 2, 0]),
            // Userdata: metatable, env, creation number, finalized.
            (2191, &[0, 0, 0, 0, 0, 0, 0, 3, 0, 1, 0, 1, 0, 0]),
            // Thread: global, hook, error, stack size, top, counts.
            (2205, &[2, 0, 6, 1, 0, 7, 0, 0, 2, 1, 1, 1]),
            // Its open and suspended upvalues, its stack.
            (2205 + 12, &[0, 0]),
            (2205 + 44, &[1, 0]),
            (2205 + 76, &[8, 0, 0, 1, 1, 0]),
        ],
    );
    let mut bytes = vec![0; 192];
    bytes[..6].copy_from_slice(b"__mode");
    bytes[64..68].copy_from_slice(b"__gc");
    bytes[128..130].copy_from_slice(b"kv");
    assert_eq!(whole.bytes, bytes);
}

#[test]
fn freed_slots() {
    let mut h = heap([4, 2, 0, 0, 0, 0, 0, 0, 0, 1]);
    for bytes in [b"abc", b"def"] {
        h.make_string(bytes.to_vec()).expect("room");
    }
    h.full_gc();
    let whole = transcribed(&h.snapshot(), Waiting::default());
    holds_these(
        &whole.words,
        &[
            // Head is slot 3; four slots were used, two are occupied.
            (73, &[4, 4, 2]),
            // Colours, generations, links, extents of the strings.
            (91, &[2, 2, 0, 0, 0, 0, 1, 1, 0, 0, 0, 3, 1, 1, 0, 0]),
            // Lengths: of a freed one 0.
            (146, &[6, 4, 0, 0]),
        ],
    );
    assert!(whole.bytes[128..].iter().all(|b| *b == 0));
}

#[test]
fn a_debt_below_0_and_a_threshold() {
    let mut h = heap([2, 2, 0, 0, 0, 0, 0, 0, 0, 1]);
    h.gc_step_auto();
    // 224 - 65,536; the threshold is the total and 1,024.
    assert_eq!(h.counters().debt, -65312);
    let low = 0u32.wrapping_sub(65312);
    holds_these(&words(&h), &[(60, &[1248, 0, low, 0x7fff_ffff])]);
    // Phase, white, cursor. Main thread 296, two tables 448 each, strings 10, tables 800: 2,002.
    assert_eq!(h.counters().phase, Phase::Sweep);
    holds_these(&words(&h), &[(53, &[3, 2, 1, 0])]);
}

/// Gives these commands, and asks for the words after each.
struct Given {
    commands: std::vec::IntoIter<&'static str>,
    waiting: Waiting,
    seen: Vec<Vec<u32>>,
}

impl Driver for Given {
    fn next(&mut self, _: &Oracle) -> Option<Command> {
        let line = self.commands.next()?;
        Some(Command::parse(line).expect("a command"))
    }

    fn answer(&mut self, heap: &Oracle, _: &Answer) {
        let whole = transcribed(&heap.snapshot(), self.waiting);
        self.seen.push(whole.words);
    }
}

#[test]
fn a_queue_and_a_finalizer_that_is_out() {
    let script = vec![
        "table_set_node t0.0 0 s1.0 true",
        "make_userdata",
        "make_userdata",
        "make_userdata",
        "push d1.0",
        "ud_set_meta d0.0 t0.0",
        "ud_set_meta d2.0 t0.0",
        "gc_singlestep",
        "gc_singlestep",
        "gc_singlestep",
        "gc_singlestep",
        "gc_singlestep",
        "full_gc",
    ];
    let given = Rc::new(RefCell::new(Given {
        commands: script.into_iter(),
        waiting: Waiting {
            interrupted: 5,
            remaining: 0x7_0000_0006,
        },
        seen: Vec::new(),
    }));
    let sizes = Sizes::from([2, 2, 0, 0, 3, 0, 0, 1, 0, 1]);
    Oracle::with_driver(sizes, given.clone())
        .expect("sizes in range")
        .run();
    let seen = &given.borrow().seen;
    // After the atomic step: in the queue, by creation number, userdata 0 and 2.
    let atomic = &seen[11];
    holds_these(
        atomic,
        &[
            (53, &[2, 2]),
            (69, &[0, 0, 0, 2]),
            (149, &[7, 0, 0, 7, 2, 0]),
        ],
    );
    // Then the last of the queue is out.
    let out = &seen[12];
    holds_these(
        out,
        &[
            (53, &[4]),
            (64, &[5, 3, 0, 6, 7]),
            (72, &[1]),
            (149, &[7, 0, 0, 0, 0, 0]),
        ],
    );
    assert_eq!(
        Waiting::of(out),
        Waiting {
            interrupted: 5,
            remaining: 0x7_0000_0006
        }
    );
}
