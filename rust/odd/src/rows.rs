//! Every exported call of a heap, once: what it is given, how many words it tells, and how ours and the
//! second reading are given it.

use collector::engine;
use heap::ask::Kind;
use heap::{Refused, Words, needed_in};
use reading::Buffers;

/// What a call is given, in the order of its parameters.
#[derive(Clone, Copy, Debug)]
pub enum Takes {
    /// Two words: a handle of this kind.
    Handle(Kind),
    /// Three words: a value.
    Value,
    /// Three words: a value that is to be a key of the table given first.
    Key,
    /// Three words: a table's handle that may be missing.
    Maybe,
    /// An index or a count; mostly up to this.
    Place(u32),
    /// The number of a prototype.
    Proto,
    /// Any number of 32 bits.
    Number,
    /// A budget or a limit: 64 bits.
    Long,
    /// Lists of words: values, handles of upvalues, numbers of prototypes.
    Values,
    Upvalues,
    Protos,
    /// The ten sizes of a heap.
    Sizes,
    /// The bytes of a string.
    Text,
}

/// What one call was given.
#[derive(Clone, Debug, Default)]
pub struct Given {
    pub numbers: Vec<u32>,
    pub lists: Vec<Vec<u32>>,
    pub text: Vec<u8>,
    pub long: u64,
    /// How many words are lent for the answer.
    pub lent: usize,
}

/// One call.
pub struct Row {
    pub name: &'static str,
    pub takes: &'static [Takes],
    /// The words that it tells.
    pub tells: usize,
    pub ours: fn(&mut Words, &Given, &mut [u32]) -> u32,
    pub second: fn(&mut Buffers, &Given, &mut [u32]) -> u32,
}

fn code(answer: Result<(), Refused>) -> u32 {
    answer.err().map_or(0, |Refused(number)| number)
}

/// Calls of numbers alone that tell nothing.
macro_rules! silent {
    ($($name:ident [$($takes:expr),*] $($n:literal)*;)*) => {
        &[$(Row {
            name: stringify!($name),
            takes: &[$($takes),*],
            tells: 0,
            ours: |h, g, _| {
                let (w, b) = h.lent();
                engine::$name(w, b, $(g.numbers[$n]),*)
            },
            second: |h, g, _| h.$name($(g.numbers[$n]),*),
        }),*]
    };
}

/// Calls of numbers and lists that tell some words.
macro_rules! telling {
    ($($name:ident [$($takes:expr),*] $($n:literal)* $(, list $list:literal)* => $tells:literal;)*) => {
        &[$(Row {
            name: stringify!($name),
            takes: &[$($takes),*],
            tells: $tells,
            ours: |h, g, out| {
                let (w, b) = h.lent();
                engine::$name(w, b, $(g.numbers[$n],)* $(&g.lists[$list],)* out)
            },
            second: |h, g, out| h.$name($(g.numbers[$n],)* $(&g.lists[$list],)* out),
        }),*]
    };
}

/// Reads: four words.
macro_rules! reads {
    ($($name:ident [$($takes:expr),*] $($n:literal)*;)*) => {
        &[$(Row {
            name: stringify!($name),
            takes: &[$($takes),*],
            tells: 4,
            ours: |h, g, out| code(h.$name($(g.numbers[$n],)* out)),
            second: |h, g, out| h.$name($(g.numbers[$n],)* out),
        }),*]
    };
}

/// Steps: six words.
macro_rules! steps {
    ($($name:ident [$($takes:expr),*] |$g:ident| $($argument:expr)?;)*) => {
        &[$(Row {
            name: stringify!($name),
            takes: &[$($takes),*],
            tells: steps::engine::OUT,
            ours: |h, $g, out| {
                let mut engine = steps::linked().expect("the feature engine_steps is on");
                engine.$name(&mut h.words, &mut h.bytes, $($argument,)? out)
            },
            second: |h, $g, out| h.$name($($argument,)? out),
        }),*]
    };
}

use Kind::{Functions, Strings, Tables, Threads, Upvalues, Userdata};
use Takes::{Handle, Key, Long, Maybe, Number, Place, Proto, Protos, Sizes, Text, Value, Values};

const STORING: &[Row] = silent! {
    table_set [Handle(Tables), Place(64), Value] 0 1 2 3 4 5;
    table_set_node [Handle(Tables), Place(64), Key, Value] 0 1 2 3 4 5 6 7 8;
    table_set_meta [Handle(Tables), Maybe] 0 1 2 3 4;
    upvalue_close [Handle(Upvalues), Value] 0 1 2 3 4;
    upvalue_set [Handle(Upvalues), Value] 0 1 2 3 4;
    ud_set_meta [Handle(Userdata), Maybe] 0 1 2 3 4;
    ud_set_env [Handle(Userdata), Maybe] 0 1 2 3 4;
    set_type_meta [Place(9), Maybe] 0 1 2 3;
    push [Value] 0 1 2;
    stack_set [Place(16), Value] 0 1 2 3;
    set_top [Place(16)] 0;
    open_push [Handle(Upvalues)] 0 1;
    open_cut [Place(8)] 0;
    set_frame [Place(4), Place(16)] 0 1;
    set_ci [Place(4)] 0;
    set_error [Value] 0 1 2;
    set_hook [Value] 0 1 2;
    thread_push [Handle(Threads), Value] 0 1 2 3 4;
    thread_set [Handle(Threads), Place(64), Value] 0 1 2 3 4 5;
    thread_set_top [Handle(Threads), Place(64)] 0 1 2;
    thread_open_push [Handle(Threads), Handle(Upvalues)] 0 1 2 3;
    thread_open_cut [Handle(Threads), Place(16)] 0 1 2;
    thread_suspended_push [Handle(Threads), Handle(Upvalues)] 0 1 2 3;
    thread_suspended_cut [Handle(Threads), Place(16)] 0 1 2;
    thread_set_global [Handle(Threads), Handle(Tables)] 0 1 2 3;
    thread_set_error [Handle(Threads), Value] 0 1 2 3 4;
    thread_set_hook [Handle(Threads), Value] 0 1 2 3 4;
};

// Some of them are given nothing.
#[allow(unused_variables)]
const TELLING: &[Row] = telling! {
    make_table [Place(64), Place(64)] 0 1 => 2;
    make_proto [Values, Protos], list 0, list 1 => 2;
    make_lua_closure [Proto, Handle(Tables), Takes::Upvalues] 0 1 2, list 0 => 2;
    make_rust_closure [Maybe, Values] 0 1 2, list 0 => 2;
    make_open_upvalue [] => 2;
    make_closed_upvalue [Value] 0 1 2 => 2;
    make_userdata [] => 2;
    make_thread [Handle(Tables), Place(64)] 0 1 2 => 2;
    pop [] => 3;
    thread_pop [Handle(Threads)] 0 1 => 3;
    set_pause [Number] 0 => 2;
    set_stepmul [Number] 0 => 2;
};

// Some of them are given nothing.
#[allow(unused_variables)]
const READING: &[Row] = reads! {
    read_counter [Place(16)] 0;
    read_size [Place(10)] 0;
    read_out [];
    read_root [Place(5), Place(9)] 0 1;
    read_main [Place(8), Place(16)] 0 1;
    read_list [Place(4), Place(2), Place(16)] 0 1 2;
    read_arena [Place(6), Place(6), Place(16)] 0 1 2;
    read_string [Handle(Strings), Place(2), Place(64)] 0 1 2 3;
    read_table [Handle(Tables), Place(6), Place(64)] 0 1 2 3;
    read_closure [Handle(Functions), Place(6), Place(16)] 0 1 2 3;
    read_upvalue [Handle(Upvalues), Place(2)] 0 1 2;
    read_userdata [Handle(Userdata), Place(4)] 0 1 2;
    read_thread [Handle(Threads), Place(10), Place(64)] 0 1 2 3;
    read_proto [Proto, Place(5), Place(16)] 0 1 2;
};

const STEPPING: &[Row] = steps! {
    gc_singlestep [] |_g|;
    gc_step [Long] |g| g.long as i64;
    gc_step_auto [] |_g|;
    gc_check [] |_g|;
    full_gc [] |_g|;
    finish [Place(2)] |g| g.numbers[0];
};

/// The calls of other shapes.
const OTHERS: &[Row] = &[
    Row {
        name: "needed",
        takes: &[Sizes],
        tells: 2,
        ours: |_, g, out| code(needed_in(&g.lists[0], out)),
        second: |_, g, out| reading::needed(&g.lists[0], out),
    },
    Row {
        name: "make_heap",
        takes: &[Sizes],
        tells: 0,
        ours: |h, g, _| code(h.make_heap(&g.lists[0])),
        second: |h, g, _| h.make_heap(&g.lists[0]),
    },
    Row {
        name: "make_string",
        takes: &[Text],
        tells: 2,
        ours: |h, g, out| {
            let (w, b) = h.lent();
            engine::make_string(w, b, &g.text, out)
        },
        second: |h, g, out| h.make_string(&g.text, out),
    },
    Row {
        name: "set_limit",
        takes: &[Long],
        tells: 2,
        ours: |h, g, out| {
            let (w, b) = h.lent();
            engine::set_limit(w, b, g.long, out)
        },
        second: |h, g, out| h.set_limit(g.long, out),
    },
    Row {
        name: "audit",
        takes: &[],
        tells: 1,
        ours: |h, _, out| code(audit::audit_in(h, out)),
        second: |h, _, out| h.audit(out),
    },
];

/// All calls.
pub fn rows() -> impl Iterator<Item = &'static Row> {
    let all = [STORING, TELLING, READING, STEPPING, OTHERS];
    all.into_iter().flatten()
}

/// The steps alone.
#[must_use]
pub fn steps() -> &'static [Row] {
    STEPPING
}
