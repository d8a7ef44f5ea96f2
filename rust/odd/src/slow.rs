//! Large heaps on which a call has as much to do as the rules let it have.

use crate::rows::{Given, Row, rows};
use calls::Collector;
use heap::Words;
use heap::ask::{Kind, List};
use heap::layout::{ITEM, Layout, PROTO, header};
use oracle::{Sizes, StrRef, TableRef, Value};
use steps::engine::Call;

/// The most slots of an arena, and the most prototypes.
const SLOTS: u32 = 4096;
const PROTOS: u32 = 256;

/// A call that should be slow.
pub struct Slow {
    pub what: String,
    pub row: &'static Row,
    pub given: Given,
    pub heap: Words,
}

/// A heap of some sizes whose records are written word by word.
struct Building {
    heap: Words,
    layout: Layout,
}

impl Building {
    fn new(sizes: [u32; 10]) -> Self {
        let layout = Layout::new(Sizes::from(sizes));
        let mut heap = Words {
            words: vec![0; layout.words],
            bytes: vec![0; layout.bytes],
        };
        heap.make_heap(&sizes).expect("sizes in range");
        Self { heap, layout }
    }

    /// Every slot is occupied, in the current white, and `record` writes its body.
    fn fill(&mut self, kind: Kind, record: impl Fn(&mut [u32], u32)) {
        let a = self.layout.arenas[kind as usize];
        let words = &mut self.heap.words;
        for slot in 0..a.slots {
            let body = a.bodies + slot * a.stride;
            words[a.base + slot] = 1;
            words[a.base + 3 * a.slots + slot] = a.stride as u32;
            record(&mut words[body..body + a.stride], slot as u32);
        }
        words[a.top + 1] = a.slots as u32;
        words[a.top + 2] = a.slots as u32;
    }

    /// A list is full of this item.
    fn list(&mut self, list: List, item: [u32; ITEM]) {
        let list = self.layout.lists[list as usize];
        let words = &mut self.heap.words;
        words[list.count] = list.room as u32;
        for place in words[list.base..][..ITEM * list.room].chunks_mut(ITEM) {
            place.copy_from_slice(&item);
        }
    }

    /// The heap in Propagate.
    fn propagating(mut self) -> Self {
        self.heap.words[header::PHASE] = 1;
        self
    }

    fn call(self, what: &str, name: &str) -> Slow {
        called(what.to_owned(), name, self.heap)
    }
}

/// The call by its name; what it is given is as long as may be.
fn called(what: String, name: &str, heap: Words) -> Slow {
    let row = rows().find(|row| row.name == name).expect("a call");
    Slow {
        what,
        row,
        given: Given {
            text: vec![b'k'; 64],
            long: i64::MAX as u64,
            lent: row.tells,
            ..Given::default()
        },
        heap,
    }
}

/// A table's record: an array of nils, and nodes with number keys but for the last one.
fn full_table(body: &mut [u32], last: [u32; 6]) {
    body[2] = 64;
    body[3] = 64;
    for (j, node) in body[4 + 3 * 64..].chunks_mut(6).enumerate() {
        node.copy_from_slice(&[3, j as u32, 1, 5, 0, 0]);
    }
    body[4 + 3 * 64 + 6 * 63..].copy_from_slice(&last);
}

/// The metatable of userdata: its method is the last of its nodes.
fn metatable(heap: &mut Collector) -> TableRef {
    let table = heap.make_table(0, 64).expect("a table");
    for j in 0..63 {
        let key = Value::Number(1 + u64::from(j));
        let stored = heap.table_set_node(table, j, key, Value::Nil);
        stored.expect("a node");
    }
    let name = Value::Str(StrRef::new(1, 0));
    let stored = heap.table_set_node(table, 63, name, Value::Bool(true));
    stored.expect("the last node");
    table
}

/// So many userdata are due, the first slot's made last: so calls make them in slots that were freed,
/// since the sweep leaves the chain in falling order.
#[must_use]
pub fn due(userdata: u32) -> Slow {
    let sizes = [2, 3, 0, 0, userdata, 0, 0, 0, 0, 1];
    let mut heap = Collector::new(Sizes::from(sizes)).expect("sizes in range");
    let make = |heap: &mut Collector| {
        let one = |_| heap.make_userdata().expect("a slot");
        (0..userdata).map(one).collect::<Vec<_>>()
    };
    make(&mut heap);
    heap.step(Call::Full).expect("a collection");
    let table = metatable(&mut heap);
    for d in make(&mut heap) {
        heap.ud_set_meta(d, Some(table)).expect("a metatable");
    }
    let what = format!("{userdata} due userdata in slots used again");
    called(what, "full_gc", heap.heap)
}

/// Every closure has the last of all prototypes, each of which nests the one before it eight times;
/// both gray lists are full of a closure.
fn closures() -> Slow {
    let mut all = Building::new([2, 2, SLOTS, 0, 0, 0, PROTOS, 0, 0, 1]);
    all.fill(Kind::Functions, |body, slot| {
        body[0] = slot % 2;
        body[3] = PROTOS - 1;
        body[4] = 16;
        // Every other closure is a Rust closure that holds sixteen others.
        for (i, value) in body[5..].chunks_mut(3).enumerate() {
            let next = (8 * slot + i as u32) % SLOTS;
            value.copy_from_slice(&[6 * (slot % 2), next, 0]);
        }
    });
    all.heap.words[header::PROTOTYPES] = PROTOS;
    for number in 0..PROTOS {
        let place = all.layout.protos + PROTO * number as usize;
        let proto = &mut all.heap.words[place..place + PROTO];
        proto[..2].copy_from_slice(&[16, 8]);
        for constant in proto[3..51].chunks_mut(3) {
            constant.copy_from_slice(&[4, 0, 0]);
        }
        proto[51..].fill(number.saturating_sub(1));
    }
    all.list(List::Gray, [6, 8, 0]);
    all.list(List::Grayagain, [6, 8, 0]);
    all.propagating()
        .call("closures over all prototypes", "gc_step")
}

/// Both gray lists are full of one full table.
fn tables() -> Slow {
    let mut all = Building::new([2, 2, SLOTS, 0, 0, 0, 0, 0, 0, 1]);
    all.fill(Kind::Tables, |body, _| full_table(body, [6, 0, 0, 6, 1, 0]));
    all.list(List::Gray, [5, 1, 0]);
    all.list(List::Grayagain, [5, 1, 0]);
    all.propagating()
        .call("one table on full gray lists", "gc_step")
}

/// Every table is weak by the last node of its metatable, and one is listed as often as there is room.
fn weak() -> Slow {
    let mut all = Building::new([SLOTS, SLOTS, 0, 0, 0, 0, 0, 0, 0, 1]);
    all.fill(Kind::Strings, |body, _| body[0] = 64);
    all.heap.bytes.fill(b'_');
    all.heap.bytes[64 * 64 - 1] = b'k';
    all.fill(Kind::Tables, |body, slot| {
        full_table(body, [4, 0, 0, 4, 63, 0]);
        body[0] = 1;
        for (i, value) in body[4..4 + 3 * 64].chunks_mut(3).enumerate() {
            value.copy_from_slice(&[5, (slot + i as u32) % SLOTS, 0]);
        }
    });
    all.list(List::Weak, [5, 9, 0]);
    all.propagating().call("weak tables", "gc_step")
}

/// Long strings that differ from the one wanted in their last byte only.
fn strings() -> Slow {
    let mut all = Building::new([SLOTS, 2, 0, 0, 0, 0, 0, 0, 0, 1]);
    all.fill(Kind::Strings, |body, _| body[0] = 64);
    all.heap.bytes.fill(b'k');
    all.heap.bytes.chunks_mut(64).for_each(|text| text[63] = 0);
    all.call("strings of one beginning", "make_string")
}

/// All arenas are full, with full records.
fn whole(name: &str) -> Slow {
    let mut all = Building::new([SLOTS, SLOTS, SLOTS, SLOTS, SLOTS, SLOTS, 0, 256, 64, 32]);
    all.fill(Kind::Strings, |body, _| body[0] = 64);
    all.fill(Kind::Tables, |body, slot| {
        full_table(body, [8, slot, 0, 6, slot, 0]);
        body[4..7].copy_from_slice(&[5, (slot + 1) % SLOTS, 0]);
    });
    all.fill(Kind::Functions, |body, slot| {
        body[4] = 16;
        body[5] = slot;
    });
    all.fill(Kind::Upvalues, |body, slot| {
        body.copy_from_slice(&[1, 7, slot, 0])
    });
    all.fill(Kind::Userdata, |body, slot| body[0] = 1 + slot);
    all.fill(Kind::Threads, |body, slot| {
        body[0] = 1;
        body[8..12].copy_from_slice(&[64, 64, 16, 16]);
        for value in body[76..].chunks_mut(3) {
            value.copy_from_slice(&[8, slot, 0]);
        }
    });
    all.call("all arenas full", name)
}

/// All of them but [`due`].
#[must_use]
pub fn slow() -> Vec<Slow> {
    vec![
        closures(),
        tables(),
        weak(),
        strings(),
        whole("full_gc"),
        whole("audit"),
    ]
}
