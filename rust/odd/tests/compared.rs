//! A small fixed set of calls on odd buffers, and that it reaches what it should: every call of the
//! header, served and refused with each of its numbers.

use odd::rows::rows;
use odd::run::Run;
use odd::tally::{Answer, Kind};
use std::path::Path;
use steps::engine::KINDS;

/// The numbers that a call refuses with, beside 1 and 8: every call but `needed` and `make_heap`.
const REFUSED: &[(&str, &[u32])] = &[
    ("make_string", &[4, 6, 3]),
    ("make_table", &[4, 6, 3]),
    ("make_proto", &[4, 2, 3]),
    ("make_lua_closure", &[4, 2, 6, 3]),
    ("make_rust_closure", &[4, 2, 6, 3]),
    ("make_open_upvalue", &[6, 3]),
    ("make_closed_upvalue", &[4, 2, 6, 3]),
    ("make_userdata", &[6, 3]),
    ("make_thread", &[4, 2, 6, 3]),
    ("table_set", &[4, 2]),
    ("table_set_node", &[4, 2]),
    ("table_set_meta", &[4, 2]),
    ("upvalue_close", &[5, 4, 2]),
    ("upvalue_set", &[5, 4, 2]),
    ("ud_set_meta", &[4, 2]),
    ("ud_set_env", &[4, 2]),
    ("set_type_meta", &[4, 2]),
    ("push", &[4, 2]),
    ("pop", &[5]),
    ("stack_set", &[4, 2]),
    ("set_top", &[4]),
    ("open_push", &[4, 2]),
    ("open_cut", &[4]),
    ("set_frame", &[4]),
    ("set_ci", &[4]),
    ("set_error", &[4, 2]),
    ("set_hook", &[4, 2]),
    ("thread_push", &[4, 2]),
    ("thread_pop", &[5, 2]),
    ("thread_set", &[4, 2]),
    ("thread_set_top", &[4, 2]),
    ("thread_open_push", &[4, 2]),
    ("thread_open_cut", &[4, 2]),
    ("thread_suspended_push", &[4, 2]),
    ("thread_suspended_cut", &[4, 2]),
    ("thread_set_global", &[2]),
    ("thread_set_error", &[4, 2]),
    ("thread_set_hook", &[4, 2]),
    ("set_pause", &[]),
    ("set_stepmul", &[]),
    ("set_limit", &[]),
    ("gc_singlestep", &[]),
    ("gc_step", &[]),
    ("gc_step_auto", &[]),
    ("gc_check", &[7]),
    ("full_gc", &[]),
    ("finish", &[5, 7]),
    ("audit", &[]),
    ("read_counter", &[4]),
    ("read_size", &[4]),
    ("read_out", &[]),
    ("read_root", &[4]),
    ("read_main", &[4]),
    ("read_list", &[4]),
    ("read_arena", &[4]),
    ("read_string", &[4, 2]),
    ("read_table", &[4, 2]),
    ("read_closure", &[4, 2]),
    ("read_upvalue", &[4, 2]),
    ("read_userdata", &[4, 2]),
    ("read_thread", &[4, 2]),
    ("read_proto", &[4]),
];

/// How many calls the fixed set has.
const CALLS: u64 = 300_000;

#[test]
fn odd_buffers_are_read_alike() {
    let mut run = Run::new(1, false);
    if let Err(finding) = run.until(CALLS) {
        panic!("{finding}");
    }
    let tally = &run.judge.tally;
    for kind in [
        Kind::Arbitrary,
        Kind::Accepted,
        Kind::Damaged,
        Kind::Walked,
        Kind::Cut,
    ] {
        assert!(tally.of(kind) > CALLS / 25, "{kind:?}");
    }
    let mut missing = Vec::new();
    for (name, codes) in REFUSED {
        assert!(tally.served(name) > 0, "{name} is served");
        let codes = [1, 8].iter().chain(*codes);
        let never = codes.filter(|code| tally.answered(name, Answer::Refused(**code)) == 0);
        missing.extend(never.map(|code| (name, *code)));
    }
    for name in ["needed", "make_heap"] {
        assert!(tally.served(name) > 0, "{name} is served");
        for code in [1, 4] {
            assert!(
                tally.answered(name, Answer::Refused(code)) > 0,
                "{name} {code}"
            );
        }
    }
    assert!(missing.is_empty(), "never refused: {missing:?}");
    for kind in KINDS {
        let answer = Answer::Served(kind);
        let given = tally
            .calls
            .values()
            .filter(|answers| answers.contains_key(&answer));
        assert!(given.count() > 0, "no step answers {kind}");
    }
}

#[test]
fn every_call_of_the_header_is_a_row() {
    let header = Path::new(env!("CARGO_MANIFEST_DIR")).join("../../include/sieddesan.h");
    let header = std::fs::read_to_string(header).expect("the header");
    let declared = header.split("\nuint32_t sieddesan_").skip(1);
    let mut declared: Vec<&str> = declared.map(|d| d.split_once('(').expect("(").0).collect();
    let mut given: Vec<&str> = rows().map(|row| row.name).collect();
    declared.sort_unstable();
    given.sort_unstable();
    assert_eq!(given, declared);
}
