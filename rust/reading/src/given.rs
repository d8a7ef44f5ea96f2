//! What a call is given: numbers that stand for something (else 4), and handles that name something
//! (else 2).

use crate::buffers::{Heap, Told, unless};
use crate::value::{Handle, Value};
use heap::ask::Kind;
use proved::Refused;

/// Three words of an exported call: a value, or a table's handle that may be missing.
pub(crate) type Three = (u32, u32, u32);

/// A tag above 8 is 4.
pub(crate) fn value((tag, low, high): Three) -> Told<Value> {
    Value::given(tag, low, high)
}

/// `some` is 0 or 1, else 4.
pub(crate) fn maybe((some, index, generation): Three) -> Told<Option<Handle>> {
    unless(some <= 1, 4)?;
    Ok((some == 1).then_some((index, generation)))
}

/// A list of values: no whole number of them, an unknown tag, or more than a record holds is 4.
pub(crate) fn values(words: &[u32], most: usize) -> Told<Vec<Value>> {
    let each = words.chunks_exact(3);
    unless(each.remainder().is_empty() && each.len() <= most, 4)?;
    each.map(|v| value((v[0], v[1], v[2]))).collect()
}

/// A list of handles.
pub(crate) fn handles(words: &[u32], most: usize) -> Told<Vec<Handle>> {
    let each = words.chunks_exact(2);
    unless(each.remainder().is_empty() && each.len() <= most, 4)?;
    Ok(each.map(|h| (h[0], h[1])).collect())
}

impl Heap<'_> {
    /// The slot that a given handle names.
    pub fn found(&self, kind: Kind, handle: Handle) -> Told<usize> {
        self.named(kind, handle).ok_or(Refused(2))
    }

    /// Its body.
    pub fn found_body(&self, kind: Kind, handle: Handle) -> Told<usize> {
        Ok(self.body(kind, self.found(kind, handle)?))
    }

    /// A given value names what it refers to.
    pub fn sound(&self, value: Value) -> Told<()> {
        match value.object() {
            Some((kind, handle)) => self.found(kind, handle).map(|_| ()),
            None => Ok(()),
        }
    }

    pub fn sound_table(&self, table: Option<Handle>) -> Told<()> {
        match table {
            Some(table) => self.found(Kind::Tables, table).map(|_| ()),
            None => Ok(()),
        }
    }
}
