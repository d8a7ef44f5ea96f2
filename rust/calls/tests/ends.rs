//! Every size, count and list at its end, where random scripts seldom come: full, one more, and
//! collected.

use calls::compare::{How, replayed};
use oracle::{Command, FuncRef, Sizes, StrRef, TableRef, ThreadRef, UdRef, UpvalRef, Value};

const SIZES: [u32; 10] = [8, 8, 5, 66, 2, 2, 11, 256, 64, 32];

fn number(n: u32) -> Value {
    Value::number(f64::from(n))
}

fn made() -> Vec<Command> {
    let env = TableRef::new(0, 0);
    let upvalues = |n: u32| (0..n).map(|i| UpvalRef::new(i, 0)).collect::<Vec<_>>();
    let values = |n: u32| (0..n).map(number).collect::<Vec<_>>();
    let mut all: Vec<Command> = [64, 65, 0, 63, 64]
        .map(|n| Command::MakeString {
            bytes: vec![b'x'; n],
        })
        .into();
    for (array, nodes) in [(64, 64), (65, 64), (64, 65), (64, 128), (0, 3), (0, 0)] {
        all.push(Command::MakeTable { array, nodes });
    }
    all.extend((0..67).map(|_| Command::MakeOpenUpvalue {}));
    for n in [16, 17, 16] {
        let (constants, nested) = (values(n), Vec::new());
        all.push(Command::MakeProto { constants, nested });
    }
    all.extend((0..6).map(|_| Command::MakeProto {
        constants: Vec::new(),
        nested: Vec::new(),
    }));
    // Nine nested, eight, one that has a parent, one that is named twice, no number left.
    for nested in [
        (0..9).collect(),
        (0..8).collect(),
        vec![0],
        vec![8, 8],
        vec![8],
        vec![],
        vec![],
    ] {
        let constants = Vec::new();
        all.push(Command::MakeProto { constants, nested });
    }
    for n in [16, 17] {
        all.push(Command::MakeLuaClosure {
            proto: 8,
            env,
            upvalues: upvalues(n),
        });
        all.push(Command::MakeRustClosure {
            env: None,
            values: values(n),
        });
    }
    for proto in [10, 11] {
        let upvalues = Vec::new();
        all.push(Command::MakeLuaClosure {
            proto,
            env,
            upvalues,
        });
    }
    for stack in [64, 65, 0] {
        all.push(Command::MakeThread { global: env, stack });
    }
    all.extend((0..3).map(|_| Command::MakeUserdata {}));
    all
}

fn stored() -> Vec<Command> {
    let t = TableRef::new(2, 0);
    let mut all: Vec<Command> = [0, 63, 64, u32::MAX]
        .map(|i| Command::TableSet { t, i, v: number(i) })
        .into();
    let [zero, minus] = [0.0, -0.0].map(Value::number);
    let nan = Value::Number(0x7ff8_0000_0000_0001);
    let node = |j, k, v| Command::TableSetNode { t, j, k, v };
    all.extend([
        node(63, number(1), zero),
        node(64, number(2), zero),
        node(0, zero, Value::Nil),
        node(1, minus, Value::Nil),
        node(0, minus, Value::Bool(true)),
        node(2, nan, Value::Nil),
        node(2, Value::Nil, zero),
        node(2, Value::Nil, Value::Nil),
        node(62, Value::Light(0), nan),
        node(61, Value::Bool(false), nan),
        node(60, Value::Bool(true), nan),
        node(59, Value::Bool(true), nan),
    ]);
    for kind in [0, 8, 9] {
        all.push(Command::SetTypeMeta {
            kind,
            meta: Some(t),
        });
    }
    let meta = Some(TableRef::new(3, 0));
    all.push(Command::TableSetMeta { t, meta });
    all.push(Command::UdSetMeta {
        d: UdRef::new(1, 0),
        meta,
    });
    all
}

fn stacks() -> Vec<Command> {
    let (h, last) = (ThreadRef::new(0, 0), UpvalRef::new(65, 0));
    let v = Value::Function(FuncRef::new(0, 0));
    let mut all = Vec::new();
    for _ in 0..17 {
        all.push(Command::ThreadOpenPush { h, u: last });
        all.push(Command::ThreadSuspendedPush { h, u: last });
    }
    all.extend((0..65).map(|_| Command::ThreadPush { h, v }));
    all.extend((0..257).map(|_| Command::Push { v }));
    all.extend((0..65).map(|_| Command::OpenPush { u: last }));
    for top in [64, 65, 63] {
        all.push(Command::ThreadSetTop { h, top });
    }
    for top in [256, 257, 255] {
        all.push(Command::SetTop { top });
    }
    for i in [63, 64] {
        all.push(Command::ThreadSet { h, i, v: number(i) });
    }
    for i in [255, 256] {
        all.push(Command::StackSet { i, v: number(i) });
    }
    for (frame, function) in [(31, 256), (31, 257), (32, 0), (0, 255)] {
        all.push(Command::SetFrame { frame, function });
    }
    all.extend([31, 32].map(|ci| Command::SetCi { ci }));
    all.push(Command::StackSet {
        i: 0,
        v: Value::Thread(h),
    });
    all
}

fn cut() -> Vec<Command> {
    let h = ThreadRef::new(0, 0);
    let mut all = Vec::new();
    for count in [17, 16, 0] {
        all.push(Command::ThreadOpenCut { h, count });
        all.push(Command::ThreadSuspendedCut { h, count });
    }
    all.extend([65, 64, 0].map(|count| Command::OpenCut { count }));
    all.extend((0..65).map(|_| Command::ThreadPop { h }));
    all.extend((0..257).map(|_| Command::Pop {}));
    all
}

/// Two collections, by single steps and as a whole.
fn collected() -> Vec<Command> {
    let mut all = vec![Command::FullGc {}];
    all.extend((0..200).map(|_| Command::GcSinglestep {}));
    all
}

fn held_to(sizes: [u32; 10], script: Vec<Command>, how: How) -> calls::tally::Tally {
    let count = script.len() as u64;
    let run = replayed(Sizes::from(sizes), script, how);
    if let Some(difference) = run.difference {
        panic!("{difference}");
    }
    assert_eq!(run.tally.total(), count);
    run.tally
}

#[test]
fn everything_full_and_one_more() {
    let script = [made(), stored(), stacks(), collected(), cut(), collected()].concat();
    let tally = held_to(SIZES, script, How::default());
    let refused = [
        ("make_string", "refused 4", 1),
        ("make_table", "refused 4", 4),
        ("make_open_upvalue", "refused 3", 1),
        ("make_proto", "refused 4", 4),
        ("make_lua_closure", "refused 4", 2),
        ("make_rust_closure", "refused 4", 1),
        ("make_thread", "refused 4", 1),
        ("make_userdata", "refused 3", 1),
        ("table_set", "refused 4", 2),
        ("table_set_node", "refused 4", 5),
        ("set_type_meta", "refused 4", 1),
        ("thread_open_push", "refused 4", 1),
        ("thread_suspended_push", "refused 4", 1),
        ("thread_push", "refused 4", 1),
        ("push", "refused 4", 1),
        ("open_push", "refused 4", 1),
        ("set_frame", "refused 4", 2),
        ("thread_open_cut", "refused 4", 1),
        ("thread_suspended_cut", "refused 4", 1),
        ("open_cut", "refused 4", 1),
        ("thread_pop", "refused 5", 2),
        ("pop", "refused 5", 2),
    ];
    for (word, answer, n) in refused {
        assert_eq!(tally.answered(word, answer), n, "{word}: {answer}\n{tally}");
    }
}

/// Fills an arena of 4,096 slots, one more, collects, and fills it again.
fn filled(arena: usize, every: u64, make: impl Fn(u32) -> Command) {
    let mut sizes = [2, 2, 0, 0, 0, 0, 0, 4, 0, 1];
    let there = sizes[arena];
    sizes[arena] = 4096;
    let make = |from: u32| (from..from + 4097 - there).map(&make).collect::<Vec<_>>();
    let kept = Command::Push {
        v: Value::Str(StrRef::new(0, 0)),
    };
    let script = [make(0), vec![kept, Command::FullGc {}], make(10_000)].concat();
    let word = script[0].word();
    let how = How {
        every,
        ..How::default()
    };
    let tally = held_to(sizes, script, how);
    assert_eq!(tally.answered(word, "refused 3"), 2, "{tally}");
}

#[test]
fn arenas_of_4096_slots() {
    let env = TableRef::new(0, 0);
    filled(0, 16, |n| Command::MakeString {
        bytes: n.to_be_bytes().to_vec(),
    });
    filled(1, 256, |n| Command::MakeTable {
        array: n % 65,
        nodes: 1 << (n % 7),
    });
    filled(2, 64, |n| Command::MakeRustClosure {
        env: Some(env),
        values: vec![number(n); n as usize % 17],
    });
    filled(3, 16, |n| Command::MakeClosedUpvalue { v: number(n) });
    filled(4, 16, |_| Command::MakeUserdata {});
    filled(5, 256, |n| Command::MakeThread {
        global: env,
        stack: n % 65,
    });
}
