//! Weak tables.

mod common;

use collector::{Outcome, Refusal, Value};
use common::{dropped, heap, weak};

#[test]
fn weak_values_go_and_strong_ones_stay() -> Result<(), Refusal> {
    let mut heap = heap();
    let table = weak(&mut heap, b"v")?;
    let (lost, held) = (heap.make_table(0, 0)?, heap.make_table(0, 0)?);
    heap.push(held)?;
    heap.table_set(table, 0, lost)?;
    heap.table_set(table, 1, held)?;
    heap.table_set_node(table, 0, true, lost)?;
    heap.table_set_node(table, 1, false, held)?;
    assert_eq!(heap.collect()?.outcome(), Some(Outcome::Ended));

    assert_eq!(heap.table_get(table, 0)?, Value::Nil);
    assert_eq!(heap.table_get(table, 1)?, Value::Table(held));
    assert_eq!(heap.table_value(table, 0)?, Value::Nil);
    assert_eq!(
        heap.table_key(table, 0)?,
        Value::Bool(true),
        "a node keeps its key"
    );
    assert_eq!(heap.table_value(table, 1)?, Value::Table(held));
    assert!(!heap.is_live(lost)?);
    Ok(())
}

#[test]
fn weak_keys_go() -> Result<(), Refusal> {
    let mut heap = heap();
    let table = weak(&mut heap, b"k")?;
    let (key, value) = (heap.make_table(0, 0)?, heap.make_table(0, 0)?);
    heap.table_set_node(table, 0, key, 1)?;
    heap.table_set_node(table, 1, 1, value)?;
    assert_eq!(heap.collect()?.outcome(), Some(Outcome::Ended));

    assert_eq!(heap.table_value(table, 0)?, Value::Nil);
    assert!(!heap.is_live(key)?);
    assert_eq!(
        heap.table_value(table, 1)?,
        Value::Table(value),
        "values are strong"
    );
    assert!(!heap.audit()?, "the dead key is still in its node");
    Ok(())
}

#[test]
fn strings_in_a_weak_table_are_kept() -> Result<(), Refusal> {
    let mut heap = heap();
    let table = weak(&mut heap, b"kv")?;
    let text = heap.make_string(b"a string is a value, not an object")?;
    heap.table_set(table, 0, text)?;
    assert_eq!(heap.collect()?.outcome(), Some(Outcome::Ended));
    assert_eq!(heap.table_get(table, 0)?, Value::String(text));
    assert!(heap.is_live(text)?);
    Ok(())
}

#[test]
fn a_lease_leaves_the_weak_values_before_it_is_freed_and_stays_as_a_key() -> Result<(), Refusal> {
    let mut heap = heap();
    let (values, keys) = (weak(&mut heap, b"v")?, weak(&mut heap, b"k")?);
    let lease = dropped(&mut heap, 1)?[0];
    heap.table_set(values, 0, lease)?;
    heap.table_set_node(keys, 0, lease, 7)?;

    heap.collect()?.run_finalizers(|out| {
        assert_eq!(out.table_get(values, 0), Ok(Value::Nil));
        assert_eq!(out.table_value(keys, 0), Ok(Value::Number(7.0)));
    })?;
    assert!(heap.is_live(lease)?);
    assert_eq!(heap.collect()?.outcome(), Some(Outcome::Ended));
    assert!(!heap.is_live(lease)?);
    assert_eq!(heap.table_value(keys, 0)?, Value::Nil);
    Ok(())
}
