//! The guard of a finalizer: finished, failed, dropped, lost in a panic, forgotten.

mod common;

use collector::{Finalizer, Heap, Interrupted, List, Outcome, Phase, Refusal, Step, Value};
use common::{dropped, finalizing, heap};
use std::panic::{AssertUnwindSafe, catch_unwind};

/// The guard that a step hands out.
fn handed(step: Step<'_>) -> Finalizer<'_> {
    match step {
        Step::Finalizer(out) => out,
        Step::Done(outcome) => panic!("no finalizer is handed out: {outcome:?}"),
    }
}

/// After a failure: nothing is out, and so many are still due.
fn failed(heap: &Heap, due: u32) {
    assert_eq!(heap.finalizer_out(), Ok(None));
    assert_eq!(heap.interrupted(), Ok(None));
    assert_eq!(heap.phase(), Ok(Phase::Finalize));
    assert_eq!(heap.list_len(List::Queue), Ok(due));
}

#[test]
fn finish_goes_on_with_the_next() -> Result<(), Refusal> {
    let mut heap = heap();
    let leases = dropped(&mut heap, 3)?;
    let mut released = Vec::new();
    let outcome = heap
        .collect()?
        .run_finalizers(|out| released.push(out.userdata()))?;
    assert_eq!(outcome, Outcome::Ended);
    assert_eq!(
        released,
        [leases[2], leases[1], leases[0]],
        "the youngest first"
    );

    let outcome = heap
        .collect()?
        .run_finalizers(|out| panic!("{out:?} again"))?;
    assert_eq!(outcome, Outcome::Ended);
    assert!(leases.iter().all(|lease| heap.is_live(*lease) == Ok(false)));
    Ok(())
}

#[test]
fn a_dropped_guard_is_a_failure() -> Result<(), Refusal> {
    let mut heap = heap();
    let leases = dropped(&mut heap, 2)?;
    let out = handed(heap.collect()?);
    assert_eq!(out.userdata(), leases[1]);
    drop(out);
    failed(&heap, 1);

    let out = handed(heap.step(1_000_000)?);
    assert_eq!(out.userdata(), leases[0]);
    assert_eq!(out.finish()?.outcome(), Some(Outcome::Ended));
    Ok(())
}

#[test]
fn an_unlooked_at_step_is_a_failure() -> Result<(), Refusal> {
    let mut heap = heap();
    dropped(&mut heap, 2)?;
    let _ = heap.collect()?;
    failed(&heap, 1);
    Ok(())
}

#[test]
fn fail_is_what_dropping_does() -> Result<(), Refusal> {
    let mut one = heap();
    dropped(&mut one, 2)?;
    let mut other = one.clone();
    handed(one.collect()?).fail()?;
    drop(handed(other.collect()?));
    assert!(one == other);
    failed(&one, 1);
    Ok(())
}

#[test]
fn an_error_in_a_finalizer_is_a_failure() -> Result<(), Refusal> {
    fn release(heap: &mut Heap) -> Result<(), Refusal> {
        let mut out = handed(heap.collect()?);
        out.set_top(99)?; // refused
        out.finish().map(|_| ())
    }
    let mut heap = heap();
    dropped(&mut heap, 2)?;
    assert_eq!(release(&mut heap), Err(Refusal::OutOfRange));
    failed(&heap, 1);

    let step = heap.collect()?;
    let told = step.try_run_finalizers(|_| Err(Refusal::Full));
    assert_eq!(told, Err(Refusal::Full));
    failed(&heap, 0);
    Ok(())
}

#[test]
fn a_panic_in_a_finalizer_is_a_failure() -> Result<(), Refusal> {
    let mut heap = heap();
    dropped(&mut heap, 2)?;
    let unwound = catch_unwind(AssertUnwindSafe(|| {
        let out = handed(heap.collect().expect("a step"));
        panic!("the finalizer of {} panics", out.userdata());
    }));
    assert!(unwound.is_err());
    failed(&heap, 1);
    assert_eq!(heap.collect()?.run_finalizers(|_| ())?, Outcome::Ended);
    Ok(())
}

#[test]
fn the_heap_works_through_the_guard() -> Result<(), Refusal> {
    let mut heap = heap();
    let lease = dropped(&mut heap, 1)?[0];
    let mut out = handed(heap.step(1_000_000)?);
    assert_eq!(out.finalizer_out()?, Some(lease));
    assert_eq!(out.interrupted()?, Some(Interrupted::Budgeted));
    assert!(out.userdata_is_finalized(lease)?);
    assert_eq!(out.method(), Value::Bool(true));
    assert_eq!(out.single_step()?.outcome(), Some(Outcome::Busy));
    assert_eq!(out.step(5)?.outcome(), Some(Outcome::Busy));
    let note = out.make_string(b"closed")?;
    out.push(note)?;
    assert_eq!(out.finish()?.outcome(), Some(Outcome::Ended));
    assert_eq!(heap.string_bytes(note)?, b"closed");
    Ok(())
}

#[test]
fn steps_are_busy_and_a_check_looks_at_the_limit() -> Result<(), Refusal> {
    let mut heap = heap();
    dropped(&mut heap, 1)?;
    let mut out = handed(heap.collect()?);
    let before = out.clone();
    assert_eq!(out.collect()?.outcome(), Some(Outcome::Busy));
    assert!(*out == before, "nothing was done");
    assert_eq!(out.auto_step()?.outcome(), Some(Outcome::Busy));
    assert_ne!(out.debt()?, before.debt()?, "the debt grows all the same");
    assert_eq!(out.check()?.outcome(), Some(Outcome::Passed));
    out.set_limit(1)?;
    assert_eq!(out.check().unwrap_err(), Refusal::OverLimit);
    assert_eq!(out.finish()?.outcome(), Some(Outcome::Ended));
    Ok(())
}

#[test]
fn a_lease_can_be_taken_up_again() -> Result<(), Refusal> {
    let mut heap = heap();
    let lease = dropped(&mut heap, 1)?[0];
    heap.collect()?.run_finalizers(|out| {
        let userdata = out.userdata();
        out.push(userdata).expect("room on the stack");
    })?;
    heap.collect()?
        .run_finalizers(|_| panic!("none is handed out twice"))?;
    assert!(heap.is_live(lease)?, "the stack holds it");
    Ok(())
}

#[test]
fn a_check_that_is_over_its_limit_says_so_when_it_is_finished() -> Result<(), Refusal> {
    let mut heap = heap();
    dropped(&mut heap, 1)?;
    heap.set_stepmul(0)?; // a whole cycle
    heap.set_limit(100)?;
    let out = handed(heap.check()?);
    assert_eq!(out.interrupted()?, Some(Interrupted::Check));
    assert_eq!(out.finish().unwrap_err(), Refusal::OverLimit);
    assert_eq!(heap.finalizer_out()?, None);
    Ok(())
}

#[test]
fn a_single_step_hands_out_too() -> Result<(), Refusal> {
    let mut heap = heap();
    let lease = dropped(&mut heap, 1)?[0];
    while heap.phase()? != Phase::Finalize {
        let _ = heap.single_step()?;
    }
    let out = handed(heap.single_step()?);
    assert_eq!(
        (out.userdata(), out.interrupted()?),
        (lease, Some(Interrupted::Single))
    );
    assert_eq!(
        out.finish()?.outcome(),
        Some(Outcome::Stepped { cost: 100 })
    );
    Ok(())
}

#[test]
fn a_forgotten_guard_is_reclaimed() -> Result<(), Refusal> {
    let mut heap = heap();
    let lease = dropped(&mut heap, 1)?[0];
    std::mem::forget(heap.collect()?);
    assert_eq!(heap.collect()?.outcome(), Some(Outcome::Busy));

    // The same from a dump that was taken meanwhile.
    let (mut words, mut bytes) = heap.clone().into_parts();
    let mut dump = Heap::from_parts(&mut words[..], &mut bytes[..]);
    let out = dump.reclaim_finalizer()?.expect("one is out");
    assert_eq!((out.userdata(), out.method()), (lease, Value::Nil));
    assert_eq!(out.finish()?.outcome(), Some(Outcome::Ended));

    drop(heap.reclaim_finalizer()?);
    failed(&heap, 0);
    assert!(heap.reclaim_finalizer()?.is_none());
    Ok(())
}

#[test]
fn a_finalizer_that_names_nothing_is_ended() -> Result<(), Refusal> {
    let mut heap = heap();
    dropped(&mut heap, 1)?;
    std::mem::forget(heap.collect()?);
    let (mut words, bytes) = heap.into_parts();
    words[65] = 0; // the userdata that is out
    let mut odd = Heap::from_parts(words, bytes);
    assert!(odd.reclaim_finalizer()?.is_none());
    failed(&odd, 0);
    Ok(())
}

#[test]
fn a_heap_swapped_from_under_its_guard_harms_nobody() -> Result<(), Refusal> {
    let (mut one, mut other) = (heap(), heap());
    let lease = dropped(&mut one, 1)?[0];
    let untouched = other.clone();
    let mut out = handed(one.collect()?);
    std::mem::swap(&mut *out, &mut other);
    assert_eq!(out.finish().unwrap_err(), Refusal::WrongState);
    assert!(one == untouched);
    assert_eq!(other.finalizer_out()?, Some(lease));
    assert!(other.reclaim_finalizer()?.is_some());
    failed(&other, 0);
    Ok(())
}

#[test]
fn what_is_held_is_not_handed_out() -> Result<(), Refusal> {
    let mut heap = heap();
    let metatable = finalizing(&mut heap)?;
    let lease = heap.make_userdata()?;
    heap.userdata_set_metatable(lease, metatable)?;
    heap.push(lease)?;
    assert_eq!(heap.collect()?.outcome(), Some(Outcome::Ended));
    heap.pop()?;
    assert_eq!(handed(heap.collect()?).userdata(), lease);
    Ok(())
}
