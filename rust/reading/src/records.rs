//! The records of each kind, by the place of their body: what a field says, odd words included.

use crate::buffers::Heap;
use crate::value::Handle;
use heap::ask::Kind;
use heap::layout::{HANDLE, PROTO, STRING, VALUE, header};

/// The most that a record holds.
pub(crate) const MOST_BYTES: usize = 64;
pub(crate) const MOST_PLACES: usize = 64;
pub(crate) const MOST_HELD: usize = 16;
pub(crate) const MOST_NESTED: usize = 8;

/// Prototypes at most.
pub(crate) const PROTOTYPES: usize = 256;

/// A table: its sizes and where array and nodes begin.
#[derive(Clone, Copy)]
pub(crate) struct Table {
    pub body: usize,
    pub array: usize,
    pub nodes: usize,
}

/// The nodes of a table may be so many.
pub(crate) fn nodes_fit(nodes: usize) -> bool {
    nodes == 0 || nodes.is_power_of_two() && nodes <= MOST_PLACES
}

impl Table {
    pub fn place(self, i: usize) -> usize {
        self.body + 4 + VALUE * i
    }

    pub fn key(self, j: usize) -> usize {
        self.place(self.array) + 2 * VALUE * j
    }

    pub fn value(self, j: usize) -> usize {
        self.key(j) + VALUE
    }
}

/// A closure: whether it is a Rust closure, how much it holds, and where.
#[derive(Clone, Copy)]
pub(crate) struct Closure {
    pub body: usize,
    pub rust: bool,
    pub count: usize,
}

impl Closure {
    pub fn env(self) -> usize {
        self.body + 1
    }

    /// Of a Lua closure an upvalue's handle, of a Rust closure a value.
    pub fn held(self, i: usize) -> usize {
        let words = if self.rust { VALUE } else { HANDLE };
        self.body + 5 + words * i
    }
}

/// A thread: its counts and where each part begins.
#[derive(Clone, Copy)]
pub(crate) struct Thread {
    pub body: usize,
    pub size: usize,
    pub top: usize,
    pub opens: usize,
    pub suspended: usize,
}

impl Thread {
    pub const HOOK: usize = 2;
    pub const ERROR: usize = 5;
    pub const SIZE: usize = 8;
    pub const TOP: usize = 9;
    pub const OPENS: usize = 10;
    pub const SUSPENDED: usize = 11;

    pub fn open(self, i: usize) -> usize {
        self.body + 12 + HANDLE * i
    }

    pub fn suspended(self, i: usize) -> usize {
        self.body + 44 + HANDLE * i
    }

    pub fn place(self, i: usize) -> usize {
        self.body + 76 + VALUE * i
    }
}

/// The places of a userdata's fields.
pub(crate) mod userdata {
    pub const ENV: usize = 2;
    pub const CREATION: usize = 4;
    pub const FINALIZED: usize = 6;
}

impl Heap<'_> {
    pub fn text(&self, slot: usize) -> &[u8] {
        let length = self.count(self.body(Kind::Strings, slot), MOST_BYTES);
        &self.bytes[slot * STRING..][..length]
    }

    pub fn table(&self, body: usize) -> Table {
        let nodes = self.words[body + 3] as usize;
        Table {
            body,
            array: self.count(body + 2, MOST_PLACES),
            nodes: if nodes_fit(nodes) { nodes } else { 0 },
        }
    }

    /// Kind 1 is a Rust closure, any other a Lua closure.
    pub fn closure(&self, body: usize) -> Closure {
        Closure {
            body,
            rust: self.words[body] == 1,
            count: self.count(body + 4, MOST_HELD),
        }
    }

    /// State 1 is closed, any other open.
    pub fn is_closed(&self, body: usize) -> bool {
        self.words[body] == 1
    }

    pub fn is_finalized(&self, body: usize) -> bool {
        self.words[body + userdata::FINALIZED] != 0
    }

    pub fn metatable(&self, body: usize) -> Option<Handle> {
        self.optional(body)
    }

    /// The top reads as the least of top and size.
    pub fn thread(&self, body: usize) -> Thread {
        let size = self.count(body + Thread::SIZE, MOST_PLACES);
        Thread {
            body,
            size,
            top: size.min(self.words[body + Thread::TOP] as usize),
            opens: self.count(body + Thread::OPENS, MOST_HELD),
            suspended: self.count(body + Thread::SUSPENDED, MOST_HELD),
        }
    }

    /// The record of a prototype that is used.
    pub fn proto(&self, number: u32) -> Option<usize> {
        let used = number < self.words[header::PROTOTYPES];
        used.then(|| self.layout.protos + PROTO * number as usize)
    }

    /// The places of a prototype's constants.
    pub fn constants(&self, proto: usize) -> impl Iterator<Item = usize> + use<> {
        (0..self.count(proto, MOST_HELD)).map(move |i| proto + 3 + VALUE * i)
    }

    /// The places of the numbers that it nests.
    pub fn nested(&self, proto: usize) -> impl Iterator<Item = usize> + use<> {
        (0..self.count(proto + 1, MOST_NESTED)).map(move |i| proto + 51 + i)
    }
}
