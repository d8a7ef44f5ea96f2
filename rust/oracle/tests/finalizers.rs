//! Finalizers handed out in the middle of each kind of step.

mod common;

use common::lines;
use oracle::{Oracle, Sizes, Snapshot, StrRef, Value};

/// A userdata whose metatable has a `__gc` entry, and nothing that reaches it.
const DUE: &str = "\
sizes 16 16 4 4 16 4 4 2 4 2
make_table 0 2
table_set t0.0 0 t2.0
table_set_node t2.0 1 s1.0 n:4000000000000000
make_userdata
ud_set_meta d0.0 t2.0
";

/// Answers after those of [`DUE`].
fn after(script: &str) -> Vec<String> {
    let all = lines(&format!("{DUE}{script}"));
    assert_eq!(all[..6], ["done", "t2.0", "done", "done", "d0.0", "done"]);
    all[6..].to_vec()
}

const HANDED: &str = "handed d0.0 n:4000000000000000";

#[test]
fn each_kind_of_step_goes_on_after_success() {
    assert_eq!(after("full_gc\nfinish ok"), [HANDED, "ended"]);
    assert_eq!(after("gc_step 100000\nfinish ok"), [HANDED, "ended"]);
    assert_eq!(
        after("set_stepmul 0\ngc_step_auto\nfinish ok"),
        ["200", HANDED, "ended"]
    );
    assert_eq!(
        after("set_stepmul 0\nset_limit 1\ngc_check\nfinish ok"),
        ["200", "none", HANDED, "refused 7"]
    );
}

#[test]
fn a_single_step_costs_100_when_it_is_finished() {
    let steps = "gc_singlestep\n".repeat(13);
    let all = after(&format!("{steps}finish ok\ngc_singlestep\ncounters"));
    assert_eq!(all[12], HANDED);
    assert_eq!(all[13..15], ["stepped 100", "stepped 0"]);
    assert!(all[15].starts_with("phase pause"), "{}", all[15]);
}

#[test]
fn failure_ends_the_call_in_finalize() {
    let all = after("full_gc\nfinish fail\ncounters\nfinish ok\nfull_gc");
    assert_eq!(all[..2], [HANDED, "failed"]);
    assert!(all[2].starts_with("phase finalize"), "{}", all[2]);
    assert_eq!(all[3..], ["refused 5", "ended"]);
}

#[test]
fn after_failure_the_limit_is_not_tested() {
    let all = after("set_stepmul 0\nset_limit 1\ngc_check\nfinish fail");
    assert_eq!(all, ["200", "none", HANDED, "failed"]);
}

#[test]
fn while_one_is_out_steps_are_busy() {
    let all = after(
        "full_gc\ngc_singlestep\ngc_step 5\nfull_gc\ngc_step_auto\ncounters\ngc_check\nset_limit 3\ngc_check\nfinish ok",
    );
    assert_eq!(all[..5], [HANDED, "busy", "busy", "busy", "busy"]);
    assert!(all[5].contains(" debt -1024 "), "{}", all[5]);
    assert_eq!(all[6..], ["passed", "none", "refused 7", "ended"]);
}

#[test]
fn the_script_goes_on_and_its_changes_stay() {
    for end in ["ok", "fail"] {
        let all = after(&format!(
            "full_gc\nmake_string \"new\"\npush s2.0\nset_ci 1\nset_frame 1 1\nfinish {end}\ndump"
        ));
        let has = |line: &str| assert!(all.iter().any(|l| l == line), "{line} in {all:#?}");
        has("main top 1 stack [s2.0 nil]");
        has("main ci 1 frames [0 1]");
    }
}

#[test]
fn a_full_stack_and_popped_values_stay_as_they_are() {
    let all = after("push l:0000000000000001\npush l:0000000000000002\nfull_gc\nfinish ok\ndump");
    let stack = "[l:0000000000000001 l:0000000000000002]";
    assert!(
        all.contains(&format!("main top 2 stack {stack}")),
        "{all:#?}"
    );
    let all = after(
        "push l:0000000000000001\npush l:0000000000000002\npop\npop\nfull_gc\nfinish fail\ndump",
    );
    assert!(
        all.contains(&format!("main top 0 stack {stack}")),
        "{all:#?}"
    );
}

#[test]
fn the_method_is_looked_up_when_the_entry_is_popped() {
    let to_sweep = "gc_step 1\n".repeat(7);
    let all = after(&format!(
        "{to_sweep}counters\ntable_set_node t2.0 1 s1.0 nil\nfull_gc\naudit"
    ));
    assert!(all[7].contains("phase sweep"), "{}", all[7]);
    assert_eq!(all[8..], ["done", "ended", "yes"]);
}

#[test]
fn the_end_of_the_script_may_come_while_one_is_out() {
    assert_eq!(after("full_gc\npush nil"), [HANDED, "done"]);
}

#[test]
fn several_are_handed_out_in_one_call() {
    let all = after("make_userdata\nud_set_meta d1.0 t2.0\nfull_gc\nfinish ok\npop\nfinish ok");
    let second = HANDED.replace("d0", "d1");
    assert_eq!(all, ["d1.0", "done", &second, HANDED, "refused 5", "ended"]);
}

/// A heap with a userdata that is due, and room on its stack.
fn due() -> Oracle {
    let sizes = Sizes::from([16, 16, 4, 4, 16, 4, 4, 2, 4, 2]);
    let mut heap = Oracle::new(sizes).expect("sizes in range");
    let meta = heap.make_table(0, 2).expect("room");
    let name = Value::Str(StrRef::new(1, 0));
    heap.table_set_node(meta, 1, name, Value::Bool(true))
        .expect("a node");
    let userdata = heap.make_userdata().expect("room");
    heap.ud_set_meta(userdata, Some(meta)).expect("both named");
    heap
}

/// The whole heap but the main record: a bare step leaves what it pushed above the top.
fn but_main(heap: &Oracle, main: &Oracle) -> Snapshot {
    let main = main.snapshot().main;
    Snapshot {
        main,
        ..heap.snapshot()
    }
}

#[test]
fn bare_steps_do_what_the_others_do() {
    let steps: [(fn(&mut Oracle), fn(&mut Oracle)); 3] = [
        (|heap| _ = heap.full_gc(), Oracle::bare_full),
        (
            |heap| _ = heap.gc_step(9000),
            |heap| _ = heap.bare_step(9000),
        ),
        (
            |heap| (0..20).for_each(|_| _ = heap.gc_singlestep()),
            |heap| (0..20).for_each(|_| _ = heap.bare_singlestep()),
        ),
    ];
    for (step, bare) in steps {
        let (mut one, mut other) = (due(), due());
        step(&mut one);
        bare(&mut other);
        assert_eq!(one.snapshot(), but_main(&other, &one));
        let finalized = one.snapshot().userdata.list[0].record.clone();
        assert!(finalized.is_some_and(|d| d.finalized), "it was due");
    }
}
