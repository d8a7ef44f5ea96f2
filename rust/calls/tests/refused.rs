//! What the oracle cannot be given: buffers that test 1 refuses, the damage mark, words for the
//! answer that are too few, numbers that are no tag. The answer, and that nothing is changed.

use calls::Collector;
use calls::give::give;
use collector::engine;
use heap::Words;
use heap::layout::header;
use oracle::generate::commands;
use oracle::{Answer, Command, Refusal, Sizes};

const SIZES: [u32; 10] = [8, 8, 4, 8, 4, 2, 4, 8, 4, 2];

/// A heap that some calls have made.
fn heap(seed: u64) -> (Words, Vec<Command>) {
    let sizes = Sizes::from(SIZES);
    let script = commands(seed, 300, sizes).expect("sizes in range");
    let mut ours = Collector::new(sizes).expect("sizes in range");
    for command in &script {
        give(&mut ours, command);
    }
    (ours.heap, script)
}

/// A way to spoil a heap, and what every call then answers.
type Spoiled = (&'static str, fn(&mut Words), u8);

const SPOILED: &[Spoiled] = &[
    ("short words", |h| h.words.truncate(h.words.len() - 4), 1),
    ("short bytes", |h| h.bytes.truncate(h.bytes.len() - 4), 1),
    ("no words", |h| h.words.clear(), 1),
    ("a size", |h| h.words[1] = 4097, 1),
    ("a count", |h| h.words[header::TOP] = 9, 1),
    ("a list's count", |h| h.words[header::LISTS + 3] = 5, 1),
    ("a fresh index", |h| h.words[header::ARENAS + 1] = 9, 1),
    ("the phase", |h| h.words[header::PHASE] = 5, 1),
    ("the white", |h| h.words[header::WHITE] = 0, 1),
    ("the total", |h| h.words[header::TOTAL] = 1 << 31, 1),
    ("the damage mark", |h| h.words[header::DAMAGE] = 7, 8),
];

#[test]
fn every_call_refuses_what_test_1_refuses() {
    for seed in 0..4 {
        let (heap, script) = heap(seed);
        for (name, spoil, number) in SPOILED {
            let mut spoiled = heap.clone();
            spoil(&mut spoiled);
            let mut ours = Collector::of(spoiled.clone());
            for command in &script {
                // Of a slot's colour all that is not named is refused with 2.
                if matches!(command, Command::Colour { .. }) {
                    continue;
                }
                let Some(answer) = give(&mut ours, command) else {
                    continue;
                };
                assert_eq!(
                    answer,
                    Answer::Refused(Refusal(*number)),
                    "{name}: {command}"
                );
                assert!(ours.heap == spoiled, "{name}: {command} changed it");
            }
        }
    }
}

/// A call with numbers that are no tag, no `some` or no whole list; its answer is lent so many
/// words.
type Odd = (&'static str, usize, Call);

/// A call on both buffers and the words for its answer.
type Call = fn(&mut [u32], &mut [u8], &mut [u32]) -> u32;

const ODD: &[Odd] = &[
    ("proto, tag", 2, |w, b, o| {
        engine::make_proto(w, b, &[9, 0, 0], &[], o)
    }),
    ("proto, list", 2, |w, b, o| {
        engine::make_proto(w, b, &[0; 4], &[], o)
    }),
    ("lua closure, list", 2, |w, b, o| {
        engine::make_lua_closure(w, b, 0, 0, 0, &[0; 3], o)
    }),
    ("rust closure, tag", 2, |w, b, o| {
        engine::make_rust_closure(w, b, 0, 0, 0, &[9, 0, 0], o)
    }),
    ("rust closure, list", 2, |w, b, o| {
        engine::make_rust_closure(w, b, 0, 0, 0, &[0; 2], o)
    }),
    ("rust closure, some", 2, |w, b, o| {
        engine::make_rust_closure(w, b, 2, 0, 0, &[], o)
    }),
    ("closed upvalue", 2, |w, b, o| {
        engine::make_closed_upvalue(w, b, 9, 0, 0, o)
    }),
    ("table_set", 0, |w, b, _| {
        engine::table_set(w, b, 0, 0, 0, 9, 0, 0)
    }),
    ("table_set_node, key", 0, |w, b, _| {
        engine::table_set_node(w, b, 0, 0, 0, 9, 0, 0, 0, 0, 0)
    }),
    ("table_set_node, value", 0, |w, b, _| {
        engine::table_set_node(w, b, 0, 0, 0, 1, 0, 0, u32::MAX, 0, 0)
    }),
    ("table_set_meta", 0, |w, b, _| {
        engine::table_set_meta(w, b, 0, 0, 2, 0, 0)
    }),
    ("upvalue_close", 0, |w, b, _| {
        engine::upvalue_close(w, b, 0, 0, 9, 0, 0)
    }),
    ("upvalue_set", 0, |w, b, _| {
        engine::upvalue_set(w, b, 0, 0, 9, 0, 0)
    }),
    ("ud_set_meta", 0, |w, b, _| {
        engine::ud_set_meta(w, b, 0, 0, 2, 0, 0)
    }),
    ("ud_set_env", 0, |w, b, _| {
        engine::ud_set_env(w, b, 0, 0, u32::MAX, 0, 0)
    }),
    ("set_type_meta", 0, |w, b, _| {
        engine::set_type_meta(w, b, 0, 2, 0, 0)
    }),
    ("push", 0, |w, b, _| engine::push(w, b, 9, 0, 0)),
    ("stack_set", 0, |w, b, _| {
        engine::stack_set(w, b, 0, 9, 0, 0)
    }),
    ("set_error", 0, |w, b, _| engine::set_error(w, b, 9, 0, 0)),
    ("set_hook", 0, |w, b, _| engine::set_hook(w, b, 9, 0, 0)),
    ("thread_push", 0, |w, b, _| {
        engine::thread_push(w, b, 0, 0, 9, 0, 0)
    }),
    ("thread_set", 0, |w, b, _| {
        engine::thread_set(w, b, 0, 0, 0, 9, 0, 0)
    }),
    ("thread_set_error", 0, |w, b, _| {
        engine::thread_set_error(w, b, 0, 0, 9, 0, 0)
    }),
    ("thread_set_hook", 0, |w, b, _| {
        engine::thread_set_hook(w, b, 0, 0, 9, 0, 0)
    }),
];

/// Makes a call whose answer is lent words, and holds it to a code; nothing is changed.
fn held(name: &str, heap: &Words, lent: usize, call: Call, code: u32) {
    let (mut after, mut out) = (heap.clone(), vec![0xa5a5_a5a5; lent]);
    let (w, b) = after.lent();
    assert_eq!(call(w, b, &mut out), code, "{name}");
    assert!(after == *heap, "{name} changed the heap");
    assert!(
        out.iter().all(|w| *w == 0xa5a5_a5a5),
        "{name} told something"
    );
}

#[test]
fn numbers_that_are_no_tag() {
    let (sound, _) = heap(1);
    let mut damaged = sound.clone();
    damaged.words[header::DAMAGE] = 1;
    let mut short = sound.clone();
    short.words.truncate(90);
    for (name, lent, call) in ODD {
        held(name, &sound, *lent, *call, 4);
        held(name, &damaged, *lent, *call, 8);
        held(name, &short, *lent, *call, 1);
        if *lent > 0 {
            held(name, &damaged, lent - 1, *call, 1);
        }
    }
}

/// The calls that tell something, each with how many words.
const TELLING: &[Odd] = &[
    ("make_string", 2, |w, b, o| {
        engine::make_string(w, b, b"new", o)
    }),
    ("make_table", 2, |w, b, o| engine::make_table(w, b, 0, 0, o)),
    ("make_proto", 2, |w, b, o| {
        engine::make_proto(w, b, &[], &[], o)
    }),
    ("make_lua_closure", 2, |w, b, o| {
        engine::make_lua_closure(w, b, 0, 0, 0, &[], o)
    }),
    ("make_rust_closure", 2, |w, b, o| {
        engine::make_rust_closure(w, b, 0, 0, 0, &[], o)
    }),
    ("make_open_upvalue", 2, |w, b, o| {
        engine::make_open_upvalue(w, b, o)
    }),
    ("make_closed_upvalue", 2, |w, b, o| {
        engine::make_closed_upvalue(w, b, 0, 0, 0, o)
    }),
    ("make_userdata", 2, |w, b, o| engine::make_userdata(w, b, o)),
    ("make_thread", 2, |w, b, o| {
        engine::make_thread(w, b, 0, 0, 0, o)
    }),
    ("pop", 3, |w, b, o| engine::pop(w, b, o)),
    ("thread_pop", 3, |w, b, o| engine::thread_pop(w, b, 0, 0, o)),
    ("set_pause", 2, |w, b, o| engine::set_pause(w, b, 7, o)),
    ("set_stepmul", 2, |w, b, o| engine::set_stepmul(w, b, 7, o)),
    ("set_limit", 2, |w, b, o| engine::set_limit(w, b, 7, o)),
];

#[test]
fn too_few_words_for_the_answer() {
    let (sound, _) = heap(2);
    let mut damaged = sound.clone();
    damaged.words[header::DAMAGE] = 1;
    for (name, lent, call) in TELLING {
        for fewer in 0..*lent {
            held(name, &sound, fewer, *call, 1);
            held(name, &damaged, fewer, *call, 1);
        }
        held(name, &damaged, *lent, *call, 8);
    }
}
