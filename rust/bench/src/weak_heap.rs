//! A heap of weak tables, half of whose entries die.

use crate::side::{Side, global, name_mode, registry};
use oracle::{TableRef, Value};
use timing::timed;

/// How many weak tables there are, and how many live and how many dead ones that they hold.
pub const TABLES: u32 = 512;

/// Places of a table that holds others.
const PLACES: u32 = 64;

/// What is weak.
#[derive(Clone, Copy, Debug, PartialEq, Eq)]
pub enum Mode {
    Values,
    Keys,
    Both,
}

impl Mode {
    pub const ALL: [Self; 3] = [Self::Values, Self::Keys, Self::Both];

    pub fn name(self) -> &'static str {
        match self {
            Self::Values => "weak values",
            Self::Keys => "weak keys",
            Self::Both => "weak keys and values",
        }
    }

    fn text(self) -> &'static [u8] {
        match self {
            Self::Values => b"v",
            Self::Keys => b"k",
            Self::Both => b"kv",
        }
    }
}

pub struct WeakHeap<S> {
    side: S,
    mode: Mode,
    weak: Vec<TableRef>,
    live: Vec<TableRef>,
    kept: u32,
}

/// Makes so many tables, held by the array of another.
fn held<S: Side>(side: &mut S, by: TableRef, size: u32) -> Vec<TableRef> {
    let mut made = Vec::new();
    for list in 0..TABLES / PLACES {
        let holds = side.make_table(PLACES, 0);
        side.table_set(by, list, Value::Table(holds));
        for i in 0..PLACES {
            let table = side.make_table(size, size);
            side.table_set(holds, i, Value::Table(table));
            made.push(table);
        }
    }
    made
}

impl<S: Side> WeakHeap<S> {
    pub fn new(mode: Mode) -> Self {
        let mut side = S::new([
            4,
            8 + 3 * TABLES + 2 * TABLES / PLACES,
            0,
            0,
            0,
            0,
            0,
            4,
            0,
            1,
        ]);
        let meta = side.make_table(0, 1);
        let text = side.make_string(S::text(mode.text()));
        side.table_set_node(meta, 0, name_mode(), Value::Str(text));
        side.push(Value::Table(meta));
        let weak = held(&mut side, global(), 8);
        let live = held(&mut side, registry(), 0);
        for table in &weak {
            side.table_set_meta(*table, Some(meta));
        }
        let kept = side.occupied();
        Self {
            side,
            mode,
            weak,
            live,
            kept,
        }
    }

    /// Makes the dead ones anew and fills all entries, every other one with a dead table.
    fn renew(&mut self) {
        let dead: Vec<TableRef> = (0..TABLES).map(|_| self.side.make_table(0, 0)).collect();
        for (i, table) in self.weak.iter().enumerate() {
            for j in 0..8 {
                let of = if j % 2 == 0 { &self.live } else { &dead };
                let held = Value::Table(of[(8 * i + j) % of.len()]);
                let alive = Value::Table(self.live[(8 * i + j + 1) % of.len()]);
                let place = j as u32;
                let number = Value::number(place.into());
                let (array, key, value) = match self.mode {
                    Mode::Values => (held, number, held),
                    Mode::Keys => (alive, held, number),
                    Mode::Both => (held, held, held),
                };
                self.side.table_set(*table, place, array);
                self.side.table_set_node(*table, place, key, value);
            }
        }
    }

    /// Nanoseconds of a full collection.
    pub fn full(&mut self) -> f64 {
        self.renew();
        let time = timed(1, || self.side.full());
        assert_eq!(self.side.occupied(), self.kept, "the dead ones are gone");
        time
    }
}
