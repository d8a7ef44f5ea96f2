//! The record of each kind in words, as long as it was sized.

use super::{count, long, table, upvalue, value};
use oracle::{ClosureRecord, TableRecord, ThreadRecord, UpvalRecord, UpvalRef, UserdataRecord};

/// Places in each list of upvalues of a thread.
const THREAD_LIST: usize = 16;

pub(super) trait Record {
    /// Writes the words of the body that are in use.
    fn write(&self, body: &mut Vec<u32>);

    /// The bytes of a string; no other record has any.
    fn text(&self) -> Option<&[u8]> {
        None
    }
}

/// A string: its length.
impl Record for Vec<u8> {
    fn write(&self, body: &mut Vec<u32>) {
        body.push(count(self.len()));
    }

    fn text(&self) -> Option<&[u8]> {
        Some(self)
    }
}

/// Metatable, sizes of both parts, array, nodes.
impl Record for TableRecord {
    fn write(&self, body: &mut Vec<u32>) {
        body.extend(table(self.metatable));
        body.extend([count(self.array.len()), count(self.nodes.len())]);
        body.extend(self.array.iter().flat_map(|v| value(*v)));
        for (k, v) in &self.nodes {
            body.extend(value(*k));
            body.extend(value(*v));
        }
    }
}

/// Kind, env, prototype number, count, then handles of upvalues or values.
impl Record for ClosureRecord {
    fn write(&self, body: &mut Vec<u32>) {
        match self {
            Self::Lua {
                proto,
                env,
                upvalues,
            } => {
                body.push(0);
                body.extend(table(Some(*env)));
                body.extend([*proto, count(upvalues.len())]);
                body.extend(upvalues.iter().flat_map(|u| upvalue(*u)));
            }
            Self::Rust { env, values } => {
                body.push(1);
                body.extend(table(*env));
                body.extend([0, count(values.len())]);
                body.extend(values.iter().flat_map(|v| value(*v)));
            }
        }
    }
}

/// Whether it is closed, its value.
impl Record for UpvalRecord {
    fn write(&self, body: &mut Vec<u32>) {
        match self {
            Self::Open => body.extend([0; 4]),
            Self::Closed(v) => {
                body.push(1);
                body.extend(value(*v));
            }
        }
    }
}

/// Metatable, env, creation number, whether it is finalized.
impl Record for UserdataRecord {
    fn write(&self, body: &mut Vec<u32>) {
        body.extend(table(self.metatable));
        body.extend(table(self.env));
        body.extend(long(self.number));
        body.push(self.finalized.into());
    }
}

/// Global, hook, error, stack size, top, counts of both lists, both lists whole, stack.
impl Record for ThreadRecord {
    fn write(&self, body: &mut Vec<u32>) {
        body.extend(table(Some(self.global)));
        body.extend(value(self.hook));
        body.extend(value(self.error));
        body.extend([count(self.stack.len()), count(self.top)]);
        body.extend([count(self.open.len()), count(self.suspended.len())]);
        places(&self.open, body);
        places(&self.suspended, body);
        body.extend(self.stack.iter().flat_map(|v| value(*v)));
    }
}

/// A list with all its places; those past its end are 0.
fn places(list: &[UpvalRef], body: &mut Vec<u32>) {
    let end = body.len() + 2 * THREAD_LIST;
    body.extend(list.iter().flat_map(|u| upvalue(*u)));
    body.resize(end, 0);
}
