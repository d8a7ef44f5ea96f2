//! The source against document 01: full collections that start at Pause, in generated heaps, leave
//! exactly what the model of the document's rules leaves.

mod common;
mod model;

use common::{replay, replay_from};
use model::{Model, method};
use oracle::{
    Answer, AnyRef, Colour, Command, FuncRef, Phase, Sizes, Snapshot, Step, StrRef, TableRecord,
    TableRef, ThreadRef, UdRef, UpvalRef, Value, generate,
};
use std::collections::BTreeSet;

/// What a full collection must leave, and what it must hand out.
fn expected(before: &Snapshot) -> (Snapshot, Vec<(UdRef, Value)>, BTreeSet<ThreadRef>) {
    let mut after = before.clone();
    let mut model = Model::from_roots(before);
    let threads = model.marked_threads();
    let due = model.separate();
    let late = model
        .marked_threads()
        .difference(&threads)
        .copied()
        .collect();
    model.clear(&mut after, &due);
    let white = match before.counters.white {
        Colour::White0 => Colour::White1,
        _ => Colour::White0,
    };
    let freed = sweep(&model, &mut after, white);
    let queued = due.iter().rev().map(|d| (*d, method(&after, *d)));
    let handed = queued.filter(|(_, method)| *method != Value::Nil).collect();
    for d in &due {
        if let Some(userdata) = &mut after.userdata.list[d.index as usize].record {
            userdata.finalized = true;
        }
    }
    pace(&mut after, white, freed, due.len() as u64);
    (after, handed, late)
}

/// Sweeps all arenas; answers the bytes freed.
fn sweep(model: &Model<'_>, after: &mut Snapshot, white: Colour) -> u64 {
    let counts = [
        model.sweep(&mut after.strings, white, |i, g| StrRef::new(i, g).into()),
        model.sweep(&mut after.tables, white, |i, g| TableRef::new(i, g).into()),
        model.sweep(&mut after.closures, white, |i, g| FuncRef::new(i, g).into()),
        model.sweep(&mut after.upvalues, white, |i, g| {
            UpvalRef::new(i, g).into()
        }),
        model.sweep(&mut after.userdata, white, |i, g| UdRef::new(i, g).into()),
        model.sweep(&mut after.threads, white, |i, g| {
            AnyRef::Thread(ThreadRef::new(i, g))
        }),
    ];
    let sizes = [48, 64, 48, 24, 48, 256];
    counts
        .iter()
        .zip(sizes)
        .map(|(n, size)| u64::from(*n) * size)
        .sum()
}

/// Counters after the cycle.
fn pace(after: &mut Snapshot, white: Colour, freed: u64, due: u64) {
    let counters = &mut after.counters;
    let mut estimate = counters
        .total
        .saturating_sub(48 * due)
        .saturating_sub(freed);
    for _ in 0..due {
        estimate -= if estimate > 100 { 100 } else { 0 };
    }
    counters.white = white;
    counters.total -= freed;
    counters.estimate = estimate;
    let larger = estimate.max(counters.total);
    counters.threshold = (larger / 100 * u64::from(counters.pause)).max(4096);
    counters.debt = 0;
}

/// Runs the commands, then a full collection whose finalizers all succeed.
fn collected(sizes: oracle::Sizes, mut commands: Vec<Command>) -> (Snapshot, Vec<(UdRef, Value)>) {
    let first = commands.len();
    commands.push(Command::FullGc {});
    commands.extend((0..sizes.userdata).map(|_| Command::Finish { ok: true }));
    let mut handed = Vec::new();
    for (answer, whole) in replay_from(first, sizes, commands) {
        match answer {
            Answer::Step(Step::Handed(userdata, method)) => handed.push((userdata, method)),
            Answer::Step(Step::Ended) => return (whole, handed),
            other => panic!("{other} in a full collection"),
        }
    }
    panic!("the collection did not end");
}

/// Places of the script where the heap is at Pause for the last time before a cycle, so that much
/// is to be freed, and no finalizer is out.
fn pauses(seen: &[(Answer, Snapshot)]) -> Vec<usize> {
    let at_pause = |i: usize| {
        let whole = seen.get(i).map(|(_, whole)| whole);
        whole.is_some_and(|w| w.counters.phase == Phase::Pause && w.out.is_none())
    };
    (0..seen.len())
        .filter(|i| at_pause(*i) && !at_pause(i + 1))
        .collect()
}

/// What was seen in the collections compared.
#[derive(Debug, Default)]
struct Seen {
    collections: usize,
    finalizers: usize,
    tables_freed: u32,
    late_threads: usize,
    entries_cleared: usize,
}

/// Compares one full collection after these commands, which leave the heap as `before` says.
fn compare(sizes: Sizes, commands: Vec<Command>, before: &Snapshot, seen: &mut Seen) {
    let (mut wanted, handed, late) = expected(before);
    let (after, given) = collected(sizes, commands);
    assert_eq!(given, handed);
    // The order of threads left over and the last batch's start are the source's own.
    let left: BTreeSet<String> = after.grayagain.iter().map(ToString::to_string).collect();
    let names: BTreeSet<String> = late.iter().map(ToString::to_string).collect();
    assert_eq!((&left, after.grayagain.len()), (&names, names.len()));
    wanted.grayagain.clone_from(&after.grayagain);
    wanted.gray.clear();
    wanted.weak.clear();
    wanted.counters.cursor = after.counters.cursor;
    assert_eq!(after.to_string(), wanted.to_string());
    seen.collections += 1;
    seen.finalizers += handed.len();
    seen.tables_freed += before.tables.occupied - after.tables.occupied;
    seen.late_threads += late.len();
    seen.entries_cleared += cleared_entries(before, &after);
}

#[test]
fn full_collections_leave_what_document_01_says() {
    let mut sum = Seen::default();
    for seed in 0..50 {
        let sizes = generate::sizes(seed);
        let commands = generate::commands(seed, 900, sizes).expect("sizes in range");
        let seen = replay(sizes, commands.clone());
        for place in pauses(&seen) {
            println!("seed {seed}, after {place}");
            let before = &seen[place].1;
            compare(sizes, commands[..=place].to_vec(), before, &mut sum);
        }
    }
    println!("{sum:?}");
    assert!(sum.collections > 500 && sum.finalizers > 100);
    assert!(sum.tables_freed > 500 && sum.entries_cleared > 50);
}

/// A due userdata whose metatable holds a thread, beside a table weak by this mode.
fn by_hand(mode: &str) -> Vec<Command> {
    let script = format!(
        "make_table 1 1\nmake_thread t0.0 0\ntable_set t2.0 0 h0.0\n\
         table_set_node t2.0 0 s1.0 true\nmake_userdata\nud_set_meta d0.0 t2.0\n\
         make_string \"{mode}\"\nmake_table 0 1\ntable_set_node t3.0 0 s0.0 s2.0\n\
         make_table 4 4\ntable_set_meta t4.0 t3.0\npush t4.0\nmake_string \"held\"\n\
         make_table 0 0\nmake_rust_closure none []\ntable_set t4.0 0 s3.0\n\
         table_set t4.0 1 t5.0\ntable_set t4.0 2 d0.0\ntable_set t4.0 3 h0.0\n\
         table_set_node t4.0 0 t5.0 f0.0\ntable_set_node t4.0 1 d0.0 s3.0\n\
         table_set_node t4.0 2 f0.0 nil\ntable_set_node t4.0 3 s3.0 d0.0"
    );
    script
        .lines()
        .map(|line| Command::parse(line).expect("a command"))
        .collect()
}

#[test]
fn late_threads_and_each_mode() {
    let sizes = Sizes::default();
    for (mode, late) in [("x", 0), ("k", 0), ("v", 0), ("kv", 1)] {
        let commands = by_hand(mode);
        let seen = replay(sizes, commands.clone());
        assert!(!seen.iter().any(|(a, _)| matches!(a, Answer::Refused(_))));
        let mut sum = Seen::default();
        let before = &seen.last().expect("commands").1;
        compare(sizes, commands, before, &mut sum);
        println!("{mode}: {sum:?}");
        assert_eq!((sum.collections, sum.late_threads), (1, late));
    }
}

/// How many entries of tables that are still there were cleared.
fn cleared_entries(before: &Snapshot, after: &Snapshot) -> usize {
    let pairs = before.tables.list.iter().zip(&after.tables.list);
    let both = pairs.filter_map(|(b, a)| b.record.as_ref().zip(a.record.as_ref()));
    let count = |(b, a): (&TableRecord, &TableRecord)| {
        let array = b.array.iter().zip(&a.array).filter(|(x, y)| x != y).count();
        array + b.nodes.iter().zip(&a.nodes).filter(|(x, y)| x != y).count()
    };
    both.map(count).sum()
}
