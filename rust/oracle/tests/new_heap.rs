//! The new heap of document 01, field by field.

mod common;

use common::heap;
use oracle::{Colour, Counters, Oracle, Phase, Refusal, Sizes, StrRef, TableRef, Value};

#[test]
fn counters_are_as_document_01_says() {
    let wanted = Counters {
        phase: Phase::Pause,
        white: Colour::White0,
        cursor: (0, 0),
        total: 224,
        peak: 224,
        limit: None,
        estimate: 0,
        threshold: 65_536,
        debt: 0,
        number: 0,
        pause: 200,
        stepmul: 200,
    };
    assert_eq!(heap().counters(), wanted);
}

#[test]
fn it_holds_two_names_and_two_tables() {
    let whole = heap().snapshot();
    let strings: Vec<_> = whole
        .strings
        .list
        .iter()
        .map(|s| s.record.clone())
        .collect();
    assert_eq!(strings, [Some(b"__mode".to_vec()), Some(b"__gc".to_vec())]);
    assert_eq!(whole.tables.list.len(), 2);
    for slot in &whole.tables.list {
        let record = slot.record.as_ref().expect("occupied");
        assert_eq!((slot.generation, slot.colour), (0, Colour::White0));
        assert_eq!(record.array, [Value::Nil; 8]);
        assert_eq!(record.nodes, [(Value::Nil, Value::Nil); 8]);
        assert_eq!(record.metatable, None);
    }
    assert_eq!(whole.main.global, TableRef::new(0, 0));
    assert_eq!(whole.main.registry, TableRef::new(1, 0));
}

#[test]
fn all_else_is_empty() {
    let whole = heap().snapshot();
    assert_eq!(whole.closures.list.len(), 0);
    assert_eq!(whole.upvalues.list.len(), 0);
    assert_eq!(whole.userdata.list.len(), 0);
    assert_eq!(whole.threads.list.len(), 0);
    assert!(whole.prototypes.is_empty());
    assert!(whole.gray.is_empty() && whole.grayagain.is_empty());
    assert!(whole.weak.is_empty() && whole.queue.is_empty());
    let main = &whole.main;
    assert_eq!((main.top, main.ci), (0, 0));
    assert_eq!(main.stack, [Value::Nil; 64]);
    assert_eq!(main.frames, [0; 8]);
    assert_eq!((main.error, main.hook), (Value::Nil, Value::Nil));
    assert_eq!(main.type_metatables, [None; 9]);
    assert_eq!(whole.out, None);
}

#[test]
fn its_names_are_found_and_its_audit_passes() {
    let mut heap = heap();
    assert_eq!(heap.make_string(b"__mode".to_vec()), Ok(StrRef::new(0, 0)));
    assert_eq!(heap.make_string(b"__gc".to_vec()), Ok(StrRef::new(1, 0)));
    assert!(heap.audit());
    assert_eq!(heap.counters().total, 224);
}

#[test]
fn sizes_outside_their_ranges_are_refused() {
    let least = [2, 2, 0, 0, 0, 0, 0, 0, 0, 1];
    let most = [4096, 4096, 4096, 4096, 4096, 4096, 256, 256, 64, 32];
    assert!(Oracle::new(Sizes::from(least)).is_ok());
    assert!(Oracle::new(Sizes::from(most)).is_ok());
    for place in 0..10 {
        let mut above = most;
        above[place] += 1;
        let refused = Oracle::new(Sizes::from(above)).err();
        assert_eq!(refused, Some(Refusal(4)), "place {place}");
    }
    for place in [0, 1, 9] {
        let mut below = least;
        below[place] -= 1;
        let refused = Oracle::new(Sizes::from(below)).err();
        assert_eq!(refused, Some(Refusal(4)), "place {place}");
    }
}
