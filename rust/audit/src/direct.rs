//! The audit read straight off the words, by the sentence of document 01 and with none of our
//! code: the chain is followed with a note of every slot seen, the handles are listed.

use heap::layout::{Arena, Layout, header};
use oracle::Sizes;

/// The arenas by their places in the layout.
const STRINGS: usize = 0;
const TABLES: usize = 1;
const CLOSURES: usize = 2;
const UPVALUES: usize = 3;
const USERDATA: usize = 4;
const THREADS: usize = 5;

/// A handle in a record: the arena it should name a slot of, index, and the place of its
/// generation.
#[derive(Clone, Copy, Debug, PartialEq, Eq)]
pub struct Held {
    pub arena: usize,
    pub index: u32,
    pub generation_at: usize,
    /// The kind of record that holds it, and which field.
    pub holder: (usize, &'static str),
}

/// The words of a heap that test 1 accepts.
pub struct View<'a> {
    words: &'a [u32],
    layout: Layout,
}

impl<'a> View<'a> {
    /// # Panics
    /// If there are not even ten words.
    #[must_use]
    pub fn new(words: &'a [u32]) -> Self {
        let sizes: [u32; 10] = words[..10].try_into().expect("ten sizes");
        let layout = Layout::new(Sizes::from(sizes));
        Self { words, layout }
    }

    /// Does the heap pass the audit?
    #[must_use]
    pub fn passes(&self) -> bool {
        let within = |list: &heap::layout::List| self.words[list.count] as usize <= list.room;
        self.words[header::PHASE] == 0
            && self.layout.lists.iter().all(within)
            && self.layout.arenas.iter().all(|a| self.chain_holds(*a))
            && self.held().iter().all(|h| self.is_named(*h))
    }

    fn used(&self, a: Arena) -> usize {
        a.slots.min(self.words[a.top + 1] as usize)
    }

    /// An unknown colour is free.
    fn is_free(&self, a: Arena, i: usize) -> bool {
        !(1..=4).contains(&self.words[a.base + i])
    }

    /// Does the chain hold every free slot below the fresh index once?
    #[must_use]
    pub fn chain_holds(&self, a: Arena) -> bool {
        let mut seen = vec![false; self.used(a)];
        let mut next = self.words[a.top] as usize;
        while next != 0 {
            let i = next - 1;
            if i >= seen.len() || seen[i] {
                return false;
            }
            seen[i] = true;
            next = self.words[a.base + 2 * a.slots + i] as usize;
        }
        (0..seen.len()).all(|i| seen[i] == self.is_free(a, i))
    }

    /// Does a handle name an occupied slot?
    #[must_use]
    pub fn is_named(&self, held: Held) -> bool {
        let a = self.layout.arenas[held.arena];
        let i = held.index as usize;
        i < self.used(a)
            && self.words[a.base + a.slots + i] == self.words[held.generation_at]
            && !self.is_free(a, i)
    }

    /// Every handle in an occupied record.
    #[must_use]
    pub fn held(&self) -> Vec<Held> {
        let mut all = Vec::new();
        for (kind, a) in self.layout.arenas.iter().enumerate() {
            let occupied = (0..self.used(*a)).filter(|i| !self.is_free(*a, *i));
            for i in occupied {
                self.record(kind, a.bodies + i * a.stride, &mut all);
            }
        }
        all
    }

    /// A count that is too large reads as 0.
    fn count(&self, p: usize, most: u32) -> usize {
        let n = self.words[p];
        if n <= most { n as usize } else { 0 }
    }

    fn record(&self, kind: usize, p: usize, all: &mut Vec<Held>) {
        let fields = all.len();
        match kind {
            TABLES => self.table(p, all),
            CLOSURES => self.closure(p, all),
            UPVALUES if self.words[p] == 1 => self.value("value", p + 1, all),
            USERDATA => {
                self.option("metatable", p, all);
                self.option("env", p + 2, all);
            }
            THREADS => self.thread(p, all),
            _ => {}
        }
        for held in &mut all[fields..] {
            held.holder.0 = kind;
        }
    }

    fn table(&self, p: usize, all: &mut Vec<Held>) {
        self.option("metatable", p, all);
        let array = self.count(p + 2, 64);
        for i in 0..array {
            self.value("array", p + 4 + 3 * i, all);
        }
        let nodes = self.count(p + 3, 64);
        if nodes.is_power_of_two() {
            for j in 0..nodes {
                let q = p + 4 + 3 * array + 6 * j;
                self.value("key", q, all);
                self.value("node value", q + 3, all);
            }
        }
    }

    fn closure(&self, p: usize, all: &mut Vec<Held>) {
        self.option("env", p + 1, all);
        for i in 0..self.count(p + 4, 16) {
            if self.words[p] == 1 {
                self.value("value", p + 5 + 3 * i, all);
            } else {
                self.upvalue("upvalue", p + 5 + 2 * i, all);
            }
        }
    }

    fn thread(&self, p: usize, all: &mut Vec<Held>) {
        self.option("global", p, all);
        self.value("hook", p + 2, all);
        self.value("error", p + 5, all);
        for i in 0..self.count(p + 8, 64) {
            self.value("stack", p + 76 + 3 * i, all);
        }
        for i in 0..self.count(p + 10, 16) {
            self.upvalue("open", p + 12 + 2 * i, all);
        }
        for i in 0..self.count(p + 11, 16) {
            self.upvalue("suspended", p + 44 + 2 * i, all);
        }
    }

    fn push(field: &'static str, arena: usize, index: u32, at: usize, all: &mut Vec<Held>) {
        all.push(Held {
            arena,
            index,
            generation_at: at,
            holder: (STRINGS, field),
        });
    }

    /// The handle of a value, if it refers to an object.
    fn value(&self, field: &'static str, p: usize, all: &mut Vec<Held>) {
        let arena = match self.words[p] {
            4 => STRINGS,
            5 => TABLES,
            6 => CLOSURES,
            7 => USERDATA,
            8 => THREADS,
            _ => return,
        };
        Self::push(field, arena, self.words[p + 1], p + 2, all);
    }

    /// A table's handle that may be missing.
    fn option(&self, field: &'static str, p: usize, all: &mut Vec<Held>) {
        if let Some(index) = self.words[p].checked_sub(1) {
            Self::push(field, TABLES, index, p + 1, all);
        }
    }

    fn upvalue(&self, field: &'static str, p: usize, all: &mut Vec<Held>) {
        Self::push(field, UPVALUES, self.words[p], p + 1, all);
    }
}
