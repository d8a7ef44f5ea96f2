//! What the header tells of a cycle under way.

mod common;

use collector::{
    Colour, Heap, Interrupted, Kind, Phase, Refusal, Sizes, Step, StringRef, TableRef,
};
use common::{dropped, heap};

#[test]
fn a_new_heap_is_as_document_01_has_it() -> Result<(), Refusal> {
    let heap = Heap::new(Sizes::default())?;
    assert_eq!(
        (heap.global()?, heap.registry()?),
        (Some(TableRef::new(0, 0)), Some(TableRef::new(1, 0)))
    );
    assert_eq!(
        (heap.mode_name()?, heap.gc_name()?),
        (Some(StringRef::new(0, 0)), Some(StringRef::new(1, 0)))
    );
    assert_eq!(heap.string_bytes(StringRef::new(1, 0))?, b"__gc");
    for table in [TableRef::new(0, 0), TableRef::new(1, 0)] {
        assert_eq!(
            (heap.table_array_len(table)?, heap.table_node_count(table)?),
            (8, 8)
        );
    }
    assert_eq!(
        (heap.phase()?, heap.pause()?, heap.stepmul()?),
        (Phase::Pause, 200, 200)
    );
    assert_eq!(
        (heap.total()?, heap.peak()?, heap.threshold()?),
        (224, 224, 65_536)
    );
    assert_eq!(
        (heap.limit()?, heap.top()?, heap.current_frame()?),
        (None, 0, 0)
    );
    Ok(())
}

/// Steps until the heap is at a phase.
fn until(heap: &mut Heap, phase: Phase) -> Result<(), Refusal> {
    while heap.phase()? != phase {
        heap.single_step()?.run_finalizers(|_| ())?;
    }
    Ok(())
}

#[test]
fn the_cursor_goes_through_the_arenas() -> Result<(), Refusal> {
    let sizes = Sizes {
        tables: 200,
        ..Sizes::default()
    };
    let mut heap = Heap::new(sizes)?;
    for _ in 2..200 {
        heap.make_table(0, 0)?;
    }
    until(&mut heap, Phase::Sweep)?;
    let mut seen = Vec::new();
    while heap.phase()? == Phase::Sweep {
        seen.push(heap.cursor()?);
        heap.single_step()?.run_finalizers(|_| ())?;
    }
    // Eighty occupied slots are swept at a time.
    assert_eq!(
        seen[..3],
        [(Kind::Tables, 0), (Kind::Tables, 80), (Kind::Tables, 160)]
    );
    let kinds: Vec<Kind> = seen[3..].iter().map(|(kind, _)| *kind).collect();
    assert_eq!(
        kinds,
        [
            Kind::Functions,
            Kind::Upvalues,
            Kind::Userdata,
            Kind::Threads
        ]
    );
    assert_eq!(heap.occupied(Kind::Tables)?, 2);
    Ok(())
}

#[test]
fn colours_rise_and_the_white_flips() -> Result<(), Refusal> {
    let mut heap = heap();
    let held = heap.make_table(0, 0)?;
    let lost = heap.make_table(0, 0)?;
    heap.push(held)?;
    assert_eq!(
        (heap.white()?, heap.colour(held)?),
        (Colour::White0, Colour::White0)
    );
    until(&mut heap, Phase::SweepString)?;
    assert_eq!(heap.white()?, Colour::White1);
    assert_eq!(heap.colour(held)?, Colour::Black);
    assert_eq!(heap.colour(lost)?, Colour::White0, "it is in the old white");
    until(&mut heap, Phase::Pause)?;
    assert_eq!(heap.colour(held)?, Colour::White1);
    assert_eq!(heap.colour(lost), Err(Refusal::Stale));
    Ok(())
}

#[test]
fn the_budget_that_remains_is_kept() -> Result<(), Refusal> {
    let mut heap = heap();
    dropped(&mut heap, 2)?;
    until(&mut heap, Phase::Finalize)?;
    let Step::Finalizer(out) = heap.step(1234)? else {
        panic!("one is due");
    };
    assert_eq!(
        (out.interrupted()?, out.remaining_budget()?),
        (Some(Interrupted::Budgeted), 1234)
    );
    let Step::Finalizer(out) = out.finish()? else {
        panic!("the other is due");
    };
    assert_eq!(out.remaining_budget()?, 1134, "a finalizer costs 100");
    Ok(())
}
