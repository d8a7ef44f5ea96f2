//! Refusals in the order of document 01's table: 5, 4, 2, 6, 3.

mod common;

use common::lines;

/// Runs a script after some objects were made; its answers alone.
fn answers(script: &str) -> Vec<String> {
    let made = "\
sizes 4 4 2 3 1 1 3 2 1 1
make_table 2 4
make_open_upvalue
make_closed_upvalue nil
make_thread t0.0 1
make_proto [] []
";
    lines(&format!("{made}{script}"))[6..].to_vec()
}

#[test]
fn an_owner_that_is_not_named_has_no_ranges() {
    assert_eq!(answers("table_set t2.7 99 nil"), ["refused 2"]);
    assert_eq!(answers("table_set_node t2.7 99 nil nil"), ["refused 2"]);
    assert_eq!(
        answers("table_set_node t2.7 0 n:7ff8000000000000 nil"),
        ["refused 4"]
    );
    assert_eq!(answers("table_set_node t2.7 0 nil true"), ["refused 4"]);
    assert_eq!(
        answers("thread_pop h0.7\nthread_push h0.7 nil"),
        ["refused 2", "refused 2"]
    );
    assert_eq!(
        answers("upvalue_close u1.7 nil\nupvalue_set u0.7 nil"),
        ["refused 2", "refused 2"]
    );
    assert_eq!(
        answers("thread_open_cut h1.0 5\nthread_set h1.0 99 nil"),
        ["refused 2", "refused 2"]
    );
}

#[test]
fn ranges_come_before_handles() {
    assert_eq!(answers("table_set t2.0 2 s9.9"), ["refused 4"]);
    assert_eq!(answers("table_set t2.0 1 s9.9"), ["refused 2"]);
    assert_eq!(answers("table_set_node t2.0 4 s9.9 nil"), ["refused 4"]);
    assert_eq!(
        answers("make_thread t9.9 65\nmake_thread t9.9 64"),
        ["refused 4", "refused 2"]
    );
    assert_eq!(
        answers("set_type_meta 9 t9.9\nset_type_meta 8 t9.9"),
        ["refused 4", "refused 2"]
    );
    assert_eq!(
        answers("push nil\npush nil\npush s9.9\npop\npush s9.9")[2..],
        ["refused 4", "nil", "refused 2"]
    );
    assert_eq!(
        answers("open_push u0.0\nopen_push u9.9\nopen_cut 2\nopen_cut 0"),
        ["done", "refused 4", "refused 4", "done"]
    );
    assert_eq!(
        answers("set_frame 1 0\nset_frame 0 257\nset_frame 0 256\nset_ci 1"),
        ["refused 4", "refused 4", "done", "refused 4"]
    );
}

#[test]
fn what_does_not_fit_comes_before_handles() {
    assert_eq!(
        answers("upvalue_close u1.0 s9.9\nupvalue_close u0.0 s9.9"),
        ["refused 5", "refused 2"]
    );
    assert_eq!(
        answers("upvalue_set u0.0 s9.9\nupvalue_set u1.0 s9.9"),
        ["refused 5", "refused 2"]
    );
    assert_eq!(
        answers("pop\nthread_pop h0.0\nfinish ok\nfinish fail"),
        ["refused 5"; 4]
    );
}

#[test]
fn handles_come_before_room() {
    assert_eq!(
        answers("make_thread t9.9 1\nmake_thread t0.0 1"),
        ["refused 2", "refused 3"]
    );
    assert_eq!(
        answers("make_userdata\nmake_userdata"),
        ["d0.0", "refused 3"]
    );
    assert_eq!(
        answers("make_closed_upvalue nil\nmake_closed_upvalue h9.9\nmake_closed_upvalue nil"),
        ["u2.0", "refused 2", "refused 3"]
    );
    assert_eq!(
        answers("make_proto [] []\nmake_proto [] []\nmake_proto [t9.9] []\nmake_proto [] []"),
        ["1", "2", "refused 2", "refused 3"]
    );
}

#[test]
fn a_string_found_is_never_refused_for_room() {
    let all = answers("make_string \"a\"\nmake_string \"b\"\nmake_string \"c\"\nmake_string \"a\"");
    assert_eq!(all, ["s2.0", "s3.0", "refused 3", "s2.0"]);
    let long = "x".repeat(65);
    assert_eq!(answers(&format!("make_string \"{long}\"")), ["refused 4"]);
}

#[test]
fn keys_are_equal_by_value_and_zeros_are_one() {
    let script = "table_set_node t2.0 0 n:0000000000000000 nil\n\
                  table_set_node t2.0 1 n:8000000000000000 true\n\
                  table_set_node t2.0 0 n:8000000000000000 true\n\
                  table_set_node t2.0 0 nil nil\n\
                  table_set_node t2.0 1 n:8000000000000000 true";
    assert_eq!(
        answers(script),
        ["done", "refused 4", "done", "done", "done"]
    );
}

#[test]
fn prototypes_nest_once_and_downwards() {
    let script = "make_proto [] [0 0]\nmake_proto [] [1]\nmake_proto [] [0]\nmake_proto [] [0]";
    assert_eq!(
        answers(script),
        ["refused 4", "refused 4", "1", "refused 4"]
    );
    let many = "nil ".repeat(17);
    assert_eq!(answers(&format!("make_proto [{many}] []")), ["refused 4"]);
    assert_eq!(
        answers("make_lua_closure 1 t9.9 []\nmake_lua_closure 0 t9.9 []"),
        ["refused 4", "refused 2"]
    );
}

#[test]
fn a_closure_needs_the_constants_of_nested_prototypes() {
    let script = "make_table 0 0\nmake_proto [t3.0] []\nmake_proto [] [1]\n\
                  make_lua_closure 2 t0.0 []\nfull_gc\nmake_lua_closure 2 t0.0 []";
    assert_eq!(
        answers(script),
        ["t3.0", "1", "2", "f0.0", "ended", "refused 2"]
    );
}

#[test]
fn sizes_of_tables() {
    for (array, nodes, wanted) in [
        (64, 64, "t3.0"),
        (65, 0, "refused 4"),
        (0, 3, "refused 4"),
        (0, 128, "refused 4"),
    ] {
        assert_eq!(answers(&format!("make_table {array} {nodes}")), [wanted]);
    }
}
