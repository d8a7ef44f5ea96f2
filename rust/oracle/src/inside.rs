//! Tests that need the source's own types.

use crate::vm::gc::Color;
use crate::vm::gc::arena::{Arena, GcRef};
use crate::vm::metatable::TMS;
use crate::vm::value::Val;
use crate::{Oracle, Sizes, StrRef, Value, random::Random};

fn heap() -> Oracle {
    Oracle::new(Sizes::default()).expect("the default sizes lie in their ranges")
}

#[test]
fn thresholds_of_document_01() {
    let mut heap = heap();
    for (estimate, pause, threshold) in [(4199, 100, 4100), (112, 200, 4096)] {
        heap.set_pause(pause);
        heap.state.gc.gc_state.estimate = estimate;
        heap.state.gc.update_threshold();
        assert_eq!(heap.counters().threshold, threshold);
    }
}

#[test]
fn the_last_generation_freed_becomes_0() {
    let mut arena: Arena<u8> = Arena::new();
    arena.alloc(7, Color::White1);
    arena.put_generation(0, u32::MAX);
    let swept = arena.sweep_partial(Color::White1, Color::White0, 0, 80);
    assert_eq!(swept, (1, 1, true));
    assert_eq!(arena.slot(0).map(|(generation, _, _)| generation), Some(0));

    arena.alloc(8, Color::White0);
    arena.put_generation(0, u32::MAX);
    assert_eq!(arena.free(GcRef::named(0, u32::MAX)), Some(8));
    assert_eq!(arena.slot(0), Some((0, 0, None)));
    assert_eq!(arena.chain(), [0]);
}

#[test]
fn a_sweep_of_eighty_or_eighty_one_slots() {
    let mut arena: Arena<u32> = Arena::new();
    let all: Vec<_> = (0..81).map(|n| arena.alloc(n, Color::Black)).collect();
    arena.free(all[80]);
    let step = |arena: &mut Arena<u32>, start| {
        arena.sweep_partial(Color::White1, Color::White0, start, 80)
    };
    assert_eq!(step(&mut arena, 0), (0, 80, false));
    assert_eq!(step(&mut arena, 80), (0, 81, true));

    let mut eighty: Arena<u32> = Arena::new();
    for n in 0..80 {
        eighty.alloc(n, Color::Black);
    }
    assert_eq!(step(&mut eighty, 0), (0, 80, true));
}

/// What a lookup in node order finds.
fn in_node_order(heap: &Oracle, t: crate::TableRef, name: StrRef) -> Val {
    let table = heap.table(t).expect("named");
    let nodes = (0..table.hash_node_count()).filter_map(|j| table.hash_node_kv(j));
    let mut same = nodes.filter(|(key, _)| *key == Val::Str(name.gc()));
    same.next().map_or(Val::Nil, |(_, value)| value)
}

#[test]
fn the_source_finds_both_names_wherever_they_stand() {
    let names = [StrRef::new(0, 0), StrRef::new(1, 0)];
    for seed in 0..60 {
        let mut random = Random::new(seed);
        let mut heap = heap();
        let nodes = 1 << random.below(7);
        let t = heap.make_table(0, nodes).expect("room");
        for turn in 0..200 {
            let key = match random.below(4) {
                0 | 1 => Value::Str(names[random.below(2) as usize]),
                2 => Value::Nil,
                _ => Value::number(f64::from(random.below(9))),
            };
            let value = match key {
                Value::Nil => Value::Nil,
                _ => Value::number(f64::from(turn)),
            };
            // Refusals (a key that stands elsewhere) are part of the play.
            let _ = heap.table_set_node(t, random.below(nodes), key, value);
            for (name, event) in names.iter().zip([TMS::Mode, TMS::Gc]) {
                let held = heap.state.gc.tm_name(event);
                assert_eq!(held, Some(name.gc()));
                let table = heap.table(t).expect("named");
                let found = table.get(Val::Str(name.gc()), &heap.state.gc.string_arena);
                assert_eq!(found, in_node_order(&heap, t, *name));
            }
        }
    }
}

#[test]
fn a_string_found_in_the_old_white_takes_the_current_one() {
    let mut heap = heap();
    let lost = heap.make_string(b"lost".to_vec()).expect("room");
    while heap.counters().phase != crate::Phase::SweepString {
        heap.gc_singlestep();
    }
    let white = heap.counters().white;
    assert_ne!(heap.colour(lost.into()), Ok(white));
    assert_eq!(heap.make_string(b"lost".to_vec()), Ok(lost));
    assert_eq!(heap.colour(lost.into()), Ok(white));
    heap.gc_singlestep();
    assert!(heap.is_named(lost.into()));
}
