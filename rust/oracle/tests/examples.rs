//! Document 01's checked examples, by the calls.

mod common;

use common::{heap, lines};
use oracle::{Oracle, Phase, Sizes, Snapshot, Step, TableRef, Value};

/// Single steps until this phase begins.
fn step_to(heap: &mut Oracle, phase: Phase) {
    while heap.counters().phase != phase {
        assert!(matches!(heap.gc_singlestep(), Step::Stepped(_)));
    }
}

/// Makes strings and keeps them through the global table.
fn keep_strings(heap: &mut Oracle, count: u32) {
    for place in 0..count {
        let bytes = format!("kept {place}").into_bytes();
        let string = heap.make_string(bytes).expect("room");
        if place % 64 == 0 {
            let table = heap.make_table(64, 0).expect("room");
            let global = TableRef::new(0, 0);
            let stored = heap.table_set(global, place / 64, Value::Table(table));
            stored.expect("in range");
        }
        let table = TableRef::new(2 + place / 64, 0);
        heap.table_set(table, place % 64, Value::Str(string))
            .expect("in range");
    }
}

#[test]
fn stepmul_200_is_a_budget_of_2000() {
    for steps in 0..12 {
        let run = |automatic: bool| -> Snapshot {
            let mut heap = heap();
            keep_strings(&mut heap, 90);
            for _ in 0..steps {
                heap.gc_singlestep();
            }
            let answer = if automatic {
                heap.gc_step_auto()
            } else {
                heap.gc_step(2000)
            };
            assert!(matches!(answer, Step::Unfinished | Step::Ended));
            let mut whole = heap.snapshot();
            whole.counters.debt = 0;
            whole.counters.threshold = 0;
            whole
        };
        assert_eq!(run(true), run(false));
    }
}

#[test]
fn eighty_slots_are_one_sweep_step() {
    let mut heap = heap();
    keep_strings(&mut heap, 78);
    step_to(&mut heap, Phase::SweepString);
    assert_eq!(heap.gc_singlestep(), Step::Stepped(10));
    assert_eq!(heap.counters().phase, Phase::Sweep);
}

#[test]
fn eighty_one_slots_with_the_last_free_are_two() {
    let mut heap = heap();
    keep_strings(&mut heap, 78);
    heap.make_string(b"lost".to_vec()).expect("room");
    heap.full_gc();
    assert_eq!(heap.snapshot().strings.chain, [80]);
    step_to(&mut heap, Phase::SweepString);
    assert_eq!(heap.gc_singlestep(), Step::Stepped(10));
    assert_eq!(heap.counters().phase, Phase::SweepString);
    assert_eq!(heap.counters().cursor, (0, 80));
    assert_eq!(heap.gc_singlestep(), Step::Stepped(10));
    assert_eq!(heap.counters().phase, Phase::Sweep);
}

#[test]
fn five_slots_give_the_chain_3_1_4() {
    let mut heap = heap();
    for _ in 0..5 {
        let userdata = heap.make_userdata().expect("room");
        heap.push(Value::Userdata(userdata)).expect("room");
    }
    for (place, chain) in [(4, vec![4]), (1, vec![]), (3, vec![3, 1, 4])] {
        heap.stack_set(place, Value::Nil).expect("in range");
        if !chain.is_empty() {
            heap.full_gc();
            assert_eq!(heap.snapshot().userdata.chain, chain);
        }
    }
}

#[test]
fn creation_numbers_4_9_7_are_handed_out_9_7_4() {
    let mut script = String::from("make_table 0 1\npush t2.0\ntable_set_node t2.0 0 s1.0 true\n");
    script.push_str(&"make_userdata\n".repeat(10));
    for number in [4, 9, 7] {
        script.push_str(&format!("ud_set_meta d{number}.0 t2.0\n"));
    }
    script.push_str("full_gc\nfinish ok\nfinish ok\nfinish ok\n");
    let answers = lines(&script);
    let last = answers.len() - 4;
    let wanted = [
        "handed d9.0 true",
        "handed d7.0 true",
        "handed d4.0 true",
        "ended",
    ];
    assert_eq!(answers[last..], wanted);
}

#[test]
fn the_heapscript_example_frees_one_string() {
    let mut heap = Oracle::new(Sizes::from([16, 16, 0, 0, 16, 0, 0, 32, 0, 1])).expect("sizes");
    let ab = heap.make_string(b"ab".to_vec()).expect("room");
    let cd = heap.make_string(b"cd".to_vec()).expect("room");
    assert_eq!(
        (ab.to_string(), cd.to_string()),
        ("s2.0".into(), "s3.0".into())
    );
    heap.push(Value::Str(ab)).expect("room");
    let before = heap.snapshot();
    assert_eq!(heap.full_gc(), Step::Ended);
    let after = heap.snapshot();
    assert_eq!(before.strings.occupied - after.strings.occupied, 1);
    assert_eq!(before.tables.occupied, after.tables.occupied);
    assert_eq!(before.userdata.occupied, after.userdata.occupied);
}

#[test]
fn a_popped_value_at_place_0_stays_a_root() {
    let script = "make_string \"ab\"\npush s2.0\npop\nfull_gc\nstring_bytes s2.0";
    assert_eq!(lines(script), ["s2.0", "done", "s2.0", "ended", "\"ab\""]);
}
