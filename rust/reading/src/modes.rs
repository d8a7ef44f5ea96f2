//! What a metatable says by the two names of the header: `__mode` and `__gc`. A name is looked up by
//! its stored handle, in node order.

use crate::buffers::Heap;
use crate::value::{Handle, NIL, Value};
use heap::ask::Kind;
use heap::layout::header;

const STRING_TAG: u32 = 4;

/// Whether keys and values of a table are weak.
#[derive(Clone, Copy, Debug, Default, PartialEq, Eq)]
pub(crate) struct Mode {
    pub keys: bool,
    pub values: bool,
}

impl Heap<'_> {
    /// The value of the first node whose key is the name; nil where there is no such node, metatable
    /// or name.
    fn field(&self, metatable: Option<Handle>, name: usize) -> Value {
        let found = || {
            let (low, high) = self.optional(name)?;
            let name = Value::read(STRING_TAG, low, high);
            let table = self.table(self.named_body(Kind::Tables, metatable?)?);
            let node = (0..table.nodes).find(|j| self.value(table.key(*j)) == name)?;
            Some(self.value(table.value(node)))
        };
        found().unwrap_or(NIL)
    }

    /// The mode of tables with this metatable: the letters in its `__mode`, if that is a string.
    pub fn mode(&self, metatable: Option<Handle>) -> Mode {
        let field = self.field(metatable, header::NAME_MODE);
        let string = match field.object() {
            Some((Kind::Strings, handle)) => self.named(Kind::Strings, handle),
            _ => None,
        };
        string.map_or(Mode::default(), |slot| Mode {
            keys: self.text(slot).contains(&b'k'),
            values: self.text(slot).contains(&b'v'),
        })
    }

    /// The finalizer of userdata with this metatable; nil for none.
    pub fn finalizer(&self, metatable: Option<Handle>) -> Value {
        self.field(metatable, header::NAME_GC)
    }
}
