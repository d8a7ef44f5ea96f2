//! The proved audit held to the oracle's on heaps that calls make, and to a direct reading of the
//! words on damaged ones.

use audit::direct::View;
use audit::{HARMLESS, State, audit, audit_in, damaged_chains, damaged_word, states};
use heap::layout::header;
use heap::sizes::within;
use heap::{Words, needed};
use oracle::random::Random;
use proved::Refused;
use std::collections::BTreeMap;

/// The heaps of the tests, by their seeds.
const SEEDS: std::ops::Range<u64> = 1..41;

/// States of heaps that calls make.
fn all() -> impl Iterator<Item = (u64, State)> {
    SEEDS.flat_map(|seed| states(seed, 400).into_iter().map(move |s| (seed, s)))
}

/// Those that pass.
fn sound() -> impl Iterator<Item = Words> {
    all().filter(|(_, s)| s.passes).map(|(_, s)| s.heap)
}

#[test]
fn the_oracle_says_the_same() {
    let mut counts = BTreeMap::new();
    for (seed, state) in all() {
        let ours = audit(&state.heap);
        assert_eq!(ours, Ok(state.passes), "seed {seed}");
        let direct = View::new(&state.heap.words).passes();
        assert_eq!(direct, state.passes, "the direct reading, seed {seed}");
        let paused = state.heap.words[header::PHASE] == 0;
        *counts.entry((paused, state.passes)).or_insert(0) += 1;
    }
    println!("(at Pause, passes): {counts:?}");
    assert!(counts[&(true, true)] >= 100);
    // By stale handles alone: dead keys, values above a top, error values.
    assert!(counts[&(true, false)] >= 100);
    assert!(counts[&(false, false)] >= 100);
}

#[test]
fn a_new_heap_passes() {
    let seed = 3;
    let mut random = Random::new(seed);
    for _ in 0..100 {
        let sizes = within(&mut random);
        let (words, bytes) = needed(&sizes).expect("sizes in range");
        let mut heap = Words {
            words: vec![0; words],
            bytes: vec![0; bytes],
        };
        heap.make_heap(&sizes).expect("room");
        assert_eq!(audit(&heap), Ok(true), "{sizes:?}, seed {seed}");
    }
}

#[test]
fn a_stale_handle_is_found_wherever_it_stands() {
    let mut found = BTreeMap::new();
    for mut heap in sound() {
        let held = View::new(&heap.words).held();
        for h in held {
            let old = heap.words[h.generation_at];
            heap.words[h.generation_at] = old.wrapping_add(1);
            assert_eq!(audit(&heap), Ok(false), "{h:?}");
            heap.words[h.generation_at] = old;
            *found.entry(h.holder).or_insert(0) += 1;
        }
        assert_eq!(audit(&heap), Ok(true));
    }
    println!("(arena, field): {found:?}");
    let fields = [
        (1, "metatable"),
        (1, "array"),
        (1, "key"),
        (1, "node value"),
        (2, "env"),
        (2, "upvalue"),
        (2, "value"),
        (3, "value"),
        (4, "metatable"),
        (4, "env"),
        (5, "global"),
        (5, "hook"),
        (5, "error"),
        (5, "stack"),
        (5, "open"),
        (5, "suspended"),
    ];
    for field in fields {
        assert!(found.contains_key(&field), "no handle in {field:?}");
    }
}

#[test]
fn a_damaged_chain_is_found() {
    let mut found = BTreeMap::new();
    for heap in sound() {
        for damage in damaged_chains(&heap) {
            let ours = audit(&damage.heap).expect("test 1 does not look at chains");
            let direct = View::new(&damage.heap.words).passes();
            assert_eq!(ours, direct, "{}", damage.what);
            assert_eq!(ours, damage.what == HARMLESS, "{}", damage.what);
            *found.entry(damage.what).or_insert(0) += 1;
        }
    }
    println!("{found:?}");
    assert_eq!(found.len(), 16);
}

#[test]
fn one_word_changed_anywhere() {
    let seed = 7;
    let mut random = Random::new(seed);
    let mut counts = BTreeMap::new();
    for heap in sound() {
        for _ in 0..200 {
            let damaged = damaged_word(&heap, &mut random);
            let ours = audit(&damaged);
            if let Ok(passes) = ours {
                let direct = View::new(&damaged.words).passes();
                assert_eq!(passes, direct, "seed {seed}");
            }
            *counts.entry(ours.map_err(|r| r.0)).or_insert(0) += 1;
        }
    }
    println!("{counts:?}");
    for answer in [Ok(true), Ok(false), Err(1), Err(8)] {
        assert!(counts[&answer] >= 20, "{answer:?}");
    }
}

#[test]
fn it_is_refused_as_every_call() {
    let heap = sound().next().expect("a heap that passes");
    let refused = |change: fn(&mut Words)| {
        let mut heap = heap.clone();
        change(&mut heap);
        audit(&heap)
    };
    assert_eq!(refused(|h| h.words[header::DAMAGE] = 1), Err(Refused(8)));
    assert_eq!(refused(|h| h.words[header::PHASE] = 5), Err(Refused(1)));
    assert_eq!(refused(|h| h.words.truncate(90)), Err(Refused(1)));
    assert_eq!(refused(|h| h.bytes.clear()), Err(Refused(1)));
    assert_eq!(
        refused(|h| h.words[header::LISTS] = 1 << 20),
        Err(Refused(1))
    );
    assert_eq!(audit_in(&heap, &mut []), Err(Refused(1)));
    // Longer words than it needs, and a longer answer, of which one word is written.
    let mut out = [7; 3];
    let mut longer = heap.clone();
    longer.words.push(9);
    assert_eq!(audit_in(&longer, &mut out), Ok(()));
    assert_eq!(out, [1, 7, 7]);
}
