//! Each refusal by its number, and that a refused call changes nothing.

mod common;

use collector::{Heap, Outcome, Proto, Refusal, Sizes, TableRef, UserdataRef, Value};
use common::heap;

/// Where the header has its damage mark, its phase and its total.
const DAMAGE: usize = 52;
const PHASE: usize = 53;
const TOTAL: usize = 57;

/// The heap with a word of its header changed.
fn changed(heap: Heap, word: usize, to: u32) -> Heap {
    let (mut words, bytes) = heap.into_parts();
    words[word] = to;
    Heap::from_parts(words, bytes)
}

/// A call that is refused so and leaves the heap as it was.
fn refused<T: std::fmt::Debug>(
    heap: &mut Heap,
    number: u32,
    call: impl FnOnce(&mut Heap) -> Result<T, Refusal>,
) {
    let before = heap.clone();
    let refusal = call(heap).expect_err("a refusal");
    assert_eq!(refusal.number(), number, "{refusal}");
    assert!(*heap == before, "a refused call changes nothing");
}

#[test]
fn buffers_that_hold_no_heap_are_1() {
    refused(&mut changed(heap(), PHASE, 5), 1, |h| h.push(true));
    refused(&mut changed(heap(), 0, 4097), 1, |h| h.total());

    let (mut words, bytes) = heap().into_parts();
    words.pop();
    refused(&mut Heap::from_parts(words, bytes), 1, |h| h.audit());
    let (words, mut bytes) = heap().into_parts();
    bytes.pop();
    refused(&mut Heap::from_parts(words, bytes), 1, |h| {
        h.collect().map(|_| ())
    });
    refused(&mut Heap::from_parts(vec![], vec![]), 1, |h| h.phase());
}

#[test]
fn stale_handles_are_2() {
    let mut heap = heap();
    let lost = heap.make_table(1, 1).unwrap();
    let _ = heap.collect().unwrap();
    refused(&mut heap, 2, |h| h.push(lost));
    refused(&mut heap, 2, |h| h.table_get(lost, 0));
    refused(&mut heap, 2, |h| h.colour(lost));
    refused(&mut heap, 2, |h| h.push(UserdataRef::new(u32::MAX, 0)));
    assert_eq!(heap.is_live(lost), Ok(false));
    let free = TableRef::new(lost.index(), 1);
    refused(&mut heap, 2, |h| h.colour(free));
    assert_eq!(heap.is_live(free), Ok(false), "its slot is free");

    let again = heap.make_table(1, 1).unwrap();
    assert_eq!((again.index(), again.generation()), (lost.index(), 1));
    refused(&mut heap, 2, |h| h.table_set(again, 0, lost));
}

#[test]
fn full_arenas_are_3() {
    let mut heap = Heap::new(Sizes::SMALLEST).unwrap();
    refused(&mut heap, 3, |h| h.make_string(b"new"));
    refused(&mut heap, 3, |h| h.make_table(0, 0));
    refused(&mut heap, 3, |h| h.make_rust_closure(None, &[]));
    refused(&mut heap, 3, |h| h.make_open_upvalue());
    refused(&mut heap, 3, |h| h.make_userdata());
    refused(&mut heap, 3, |h| h.make_thread(TableRef::new(0, 0), 0));
    refused(&mut heap, 3, |h| h.make_proto(&[], &[]));
    assert!(heap.make_string(b"__gc").is_ok(), "it is present");
}

#[test]
fn what_is_out_of_range_is_4() {
    let mut heap = heap();
    let table = heap.make_table(2, 2).unwrap();
    heap.table_set_node(table, 0, 0.0, true).unwrap();
    refused(&mut heap, 4, |h| h.table_set(table, 2, true));
    refused(&mut heap, 4, |h| h.table_set_node(table, 1, f64::NAN, 1));
    refused(&mut heap, 4, |h| h.table_set_node(table, 1, Value::Nil, 1));
    refused(&mut heap, 4, |h| h.table_set_node(table, 1, -0.0, 1));
    refused(&mut heap, 4, |h| h.set_top(65));
    refused(&mut heap, 4, |h| h.make_table(65, 0));
    refused(&mut heap, 4, |h| h.make_string(&[b'x'; 65]));
    refused(&mut heap, 4, |h| h.proto_parent(Proto::new(0)));
    let sizes = Sizes {
        frames: 33,
        ..Sizes::default()
    };
    assert_eq!(Heap::new(sizes), Err(Refusal::OutOfRange));
}

/// Lists that are longer than any may be, however long: the engine is lent only their beginning.
#[test]
fn long_lists_are_4() {
    let mut heap = heap();
    let (env, upvalue) = (
        heap.make_table(0, 0).unwrap(),
        heap.make_open_upvalue().unwrap(),
    );
    let proto = heap.make_proto(&[Value::Nil; 16], &[]).unwrap();
    for length in [17, 18, 500] {
        refused(&mut heap, 4, |h| {
            h.make_proto(&vec![Value::Nil; length], &[])
        });
        refused(&mut heap, 4, |h| h.make_proto(&[], &vec![proto; length]));
        refused(&mut heap, 4, |h| {
            h.make_rust_closure(env, &vec![Value::Nil; length])
        });
        refused(&mut heap, 4, |h| {
            h.make_lua_closure(proto, env, &vec![upvalue; length])
        });
    }
    let closure = heap.make_lua_closure(proto, env, &[upvalue; 16]).unwrap();
    assert_eq!(heap.closure_len(closure), Ok(16));
    assert_eq!(heap.closure_upvalue(closure, 15), Ok(upvalue));
}

#[test]
fn nested_prototypes_are_told_as_given() {
    let mut heap = heap();
    let nested: Vec<Proto> = (0..9).map(|_| heap.make_proto(&[], &[]).unwrap()).collect();
    refused(&mut heap, 4, |h| h.make_proto(&[], &nested));
    let outer = heap
        .make_proto(&[Value::Number(2.5)], &nested[..8])
        .unwrap();
    for (i, inner) in nested[..8].iter().enumerate() {
        assert_eq!(heap.proto_nested(outer, i as u32), Ok(*inner));
        assert_eq!(heap.proto_parent(*inner), Ok(Some(outer)));
    }
    assert_eq!(heap.proto_parent(nested[8]), Ok(None));
    assert_eq!(heap.proto_constant(outer, 0), Ok(Value::Number(2.5)));
}

#[test]
fn the_wrong_state_is_5() {
    let mut heap = heap();
    heap.pop().unwrap();
    refused(&mut heap, 5, |h| h.pop());
    let open = heap.make_open_upvalue().unwrap();
    refused(&mut heap, 5, |h| h.upvalue_set(open, 1));
    heap.upvalue_close(open, 1).unwrap();
    refused(&mut heap, 5, |h| h.upvalue_close(open, 1));
}

#[test]
fn a_total_at_its_end_is_6() {
    let mut heap = changed(heap(), TOTAL, (1 << 31) - 48);
    refused(&mut heap, 6, |h| h.make_userdata());
    refused(&mut heap, 6, |h| h.make_table(0, 0));
    assert!(heap.make_open_upvalue().is_ok(), "24 bytes fit");
}

#[test]
fn a_total_above_the_limit_is_7() {
    let mut heap = heap();
    assert_eq!(heap.set_limit(223), Ok(None));
    assert_eq!(heap.check().unwrap_err().number(), 7);
    assert_eq!(heap.set_limit(None), Ok(Some(223)));
    assert_eq!(heap.check().unwrap().outcome(), Some(Outcome::Passed));
}

#[test]
fn damage_is_8() {
    refused(&mut changed(heap(), DAMAGE, 1), 8, |h| h.total());

    // A chain of free userdata whose head names no slot: making one finds it and sets the mark.
    let mut odd = changed(heap(), 73 + 3 * 4, 99);
    assert_eq!(odd.make_userdata(), Err(Refusal::Damaged));
    assert_eq!(odd.words()[DAMAGE], 1);
    refused(&mut odd, 8, |h| h.push(true));
}

#[test]
fn numbers_and_words() {
    for (refusal, number) in Refusal::ALL.into_iter().zip(1..) {
        assert_eq!(refusal.number(), number);
        assert_eq!(Refusal::from_number(number), Some(refusal));
        assert!(
            refusal
                .to_string()
                .ends_with(&format!("(refusal {number})"))
        );
    }
    assert_eq!(Refusal::from_number(0), None);
    assert_eq!(Refusal::from_number(u32::MAX), None);
    let error: Box<dyn std::error::Error + Send + Sync> = Refusal::Stale.into();
    assert!(error.to_string().contains("names no occupied slot"));
}
