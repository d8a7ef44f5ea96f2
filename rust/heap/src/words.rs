//! A heap of the oracle written into the words and bytes that ours has for it, as docs/LAYOUT.md
//! lays them out. What nothing is written to is 0: free slots but for generation and link, items
//! past a list's count, places past a record.

mod records;

use crate::layout::{Arena, HANDLE, Layout, List, PROTO, STRING, VALUE, header};
use crate::ours::Words;
use oracle::{
    Colour, Counters, MainRecord, Phase, ProtoRecord, Slots, Snapshot, TableRef, UdRef, UpvalRef,
    Value, WorkItem,
};
use records::Record;

/// What the oracle does not show of a finalizer that is out: what it interrupted and the remaining
/// budget. The source has both on its Rust stack. With none out both are 0.
#[derive(Clone, Copy, Debug, Default, PartialEq, Eq)]
pub struct Waiting {
    pub interrupted: u32,
    pub remaining: u64,
}

impl Waiting {
    /// As a heap of ours has it.
    #[must_use]
    pub fn of(words: &[u32]) -> Self {
        let [low, high] = [0, 1].map(|k| u64::from(words[header::REMAINING + k]));
        Self {
            interrupted: words[header::INTERRUPTED],
            remaining: low | high << 32,
        }
    }
}

/// The three words of a value: its tag and two more.
#[must_use]
pub fn value(v: Value) -> [u32; VALUE] {
    let bits = |tag: u32, n: u64| [tag, n as u32, (n >> 32) as u32];
    match v {
        Value::Nil => [0; VALUE],
        Value::Bool(b) => [1, b.into(), 0],
        Value::Light(n) => bits(2, n),
        Value::Number(n) => bits(3, n),
        Value::Str(r) => [4, r.index, r.generation],
        Value::Table(r) => [5, r.index, r.generation],
        Value::Function(r) => [6, r.index, r.generation],
        Value::Userdata(r) => [7, r.index, r.generation],
        Value::Thread(r) => [8, r.index, r.generation],
    }
}

/// A handle that is always there.
fn upvalue(r: UpvalRef) -> [u32; HANDLE] {
    [r.index, r.generation]
}

/// A table's handle that may be missing: index + 1.
fn table(r: Option<TableRef>) -> [u32; HANDLE] {
    r.map_or([0; HANDLE], |r| [r.index + 1, r.generation])
}

fn userdata(r: Option<UdRef>) -> [u32; HANDLE] {
    r.map_or([0; HANDLE], |r| [r.index + 1, r.generation])
}

/// 64 bits, the low word first.
fn long(n: u64) -> [u32; 2] {
    [n as u32, (n >> 32) as u32]
}

fn count(n: usize) -> u32 {
    u32::try_from(n).expect("a count fits a word")
}

fn colour(c: Colour) -> u32 {
    match c {
        Colour::Free => 0,
        Colour::White0 => 1,
        Colour::White1 => 2,
        Colour::Gray => 3,
        Colour::Black => 4,
    }
}

/// The number of a phase.
#[must_use]
pub fn phase(p: Phase) -> u32 {
    match p {
        Phase::Pause => 0,
        Phase::Propagate => 1,
        Phase::SweepString => 2,
        Phase::Sweep => 3,
        Phase::Finalize => 4,
    }
}

/// An item of a list: kind, index, generation.
fn item(i: &WorkItem) -> [u32; 3] {
    match i {
        WorkItem::Table(r) => [5, r.index, r.generation],
        WorkItem::Closure(r) => [6, r.index, r.generation],
        WorkItem::Thread(r) => [8, r.index, r.generation],
        WorkItem::Main => [9, 0, 0],
    }
}

struct Writer<'a> {
    layout: Layout,
    heap: &'a mut Words,
}

impl Writer<'_> {
    fn word(&mut self, place: usize, word: u32) {
        self.heap.words[place] = word;
    }

    fn words(&mut self, place: usize, words: &[u32]) {
        self.heap.words[place..place + words.len()].copy_from_slice(words);
    }

    /// A counter that has one word.
    fn counter(&mut self, place: usize, n: u64) {
        self.word(place, u32::try_from(n).expect("a counter fits its word"));
    }

    fn arena<R: Record>(&mut self, arena: Arena, slots: &Slots<R>) {
        let Arena {
            top, base, stride, ..
        } = arena;
        let head = slots.chain.first().map_or(0, |i| i + 1);
        self.words(top, &[head, count(slots.list.len()), slots.occupied]);
        let mut body = Vec::with_capacity(stride);
        for (i, slot) in slots.list.iter().enumerate() {
            self.word(base + i, colour(slot.colour));
            self.word(base + arena.slots + i, slot.generation);
            if let Some(record) = &slot.record {
                body.clear();
                record.write(&mut body);
                // A record is as long as it was sized: that is its extent.
                self.word(base + 3 * arena.slots + i, count(body.len()));
                self.words(arena.bodies + i * stride, &body);
                if let Some(text) = record.text() {
                    self.heap.bytes[i * STRING..][..text.len()].copy_from_slice(text);
                }
            }
        }
        for pair in slots.chain.windows(2) {
            self.word(base + 2 * arena.slots + pair[0] as usize, pair[1] + 1);
        }
    }

    fn list(&mut self, list: List, items: &[[u32; 3]]) {
        assert!(
            items.len() <= list.room,
            "more items than the list has room"
        );
        self.word(list.count, count(items.len()));
        self.words(list.base, items.as_flattened());
    }

    fn counters(&mut self, c: &Counters) {
        self.words(header::LIMIT, &long(c.limit.unwrap_or(u64::MAX)));
        self.words(header::PAUSE, &[c.pause, c.stepmul]);
        self.words(header::CREATION, &long(c.number));
        self.words(header::PHASE, &[phase(c.phase), colour(c.white)]);
        self.words(header::CURSOR, &[c.cursor.0.into(), c.cursor.1]);
        self.counter(header::TOTAL, c.total);
        self.counter(header::PEAK, c.peak);
        self.counter(header::ESTIMATE, c.estimate);
        self.words(header::THRESHOLD, &long(c.threshold));
        // Stored plus 2^63.
        self.words(header::DEBT, &long(c.debt as u64 ^ 1 << 63));
    }

    fn main(&mut self, main: &MainRecord) {
        let Layout {
            stack,
            opens,
            frames,
            ..
        } = self.layout;
        self.words(
            header::TOP,
            &[count(main.top), count(main.open.len()), count(main.ci)],
        );
        self.words(header::ERROR, &value(main.error));
        self.words(header::HOOK, &value(main.hook));
        self.words(header::GLOBAL, &table(Some(main.global)));
        self.words(header::REGISTRY, &table(Some(main.registry)));
        // The names are strings 0 and 1 as long as the heap lives; a snapshot does not show them.
        self.words(header::NAME_MODE, &[1, 0]);
        self.words(header::NAME_GC, &[2, 0]);
        for (kind, t) in main.type_metatables.iter().enumerate() {
            self.words(header::METATABLES + HANDLE * kind, &table(*t));
        }
        for (i, v) in main.stack.iter().enumerate() {
            self.words(stack + VALUE * i, &value(*v));
        }
        for (i, u) in main.open.iter().enumerate() {
            self.words(opens + HANDLE * i, &upvalue(*u));
        }
        for (i, function) in main.frames.iter().enumerate() {
            self.word(frames + i, count(*function));
        }
    }

    fn prototypes(&mut self, all: &[ProtoRecord]) {
        self.word(header::PROTOTYPES, count(all.len()));
        let place = |n: usize| self.layout.protos + PROTO * n;
        let places: Vec<usize> = (0..all.len()).map(place).collect();
        for (n, proto) in all.iter().enumerate() {
            let counts = [count(proto.constants.len()), count(proto.nested.len())];
            self.words(places[n], &counts);
            for (k, v) in proto.constants.iter().enumerate() {
                self.words(places[n] + 3 + VALUE * k, &value(*v));
            }
            self.words(places[n] + 51, &proto.nested);
            // Each has one parent at most: who nests it says so.
            for child in &proto.nested {
                self.word(places[*child as usize] + 2, count(n + 1));
            }
        }
    }

    fn lists(&mut self, whole: &Snapshot) {
        let [gray, grayagain, weak, queue] = self.layout.lists;
        let items = |list: &[WorkItem]| -> Vec<_> { list.iter().map(item).collect() };
        self.list(gray, &items(&whole.gray));
        self.list(grayagain, &items(&whole.grayagain));
        let tables = whole.weak.iter().map(|r| [5, r.index, r.generation]);
        self.list(weak, &tables.collect::<Vec<_>>());
        let due = whole.queue.iter().map(|r| [7, r.index, r.generation]);
        self.list(queue, &due.collect::<Vec<_>>());
    }
}

/// Makes of the two buffers the same heap of ours, exactly as long as it needs. What they held is
/// gone.
///
/// # Panics
/// If a list of the source is longer than its room, or a counter than its word.
pub fn transcribe(whole: &Snapshot, waiting: Waiting, heap: &mut Words) {
    let layout = Layout::new(whole.sizes);
    let arenas = layout.arenas;
    heap.words.clear();
    heap.words.resize(layout.words, 0);
    heap.bytes.clear();
    heap.bytes.resize(layout.bytes, 0);
    let mut writer = Writer { layout, heap };
    writer.words(0, &<[u32; 10]>::from(whole.sizes));
    writer.counters(&whole.counters);
    writer.main(&whole.main);
    writer.lists(whole);
    writer.prototypes(&whole.prototypes);
    writer.arena(arenas[0], &whole.strings);
    writer.arena(arenas[1], &whole.tables);
    writer.arena(arenas[2], &whole.closures);
    writer.arena(arenas[3], &whole.upvalues);
    writer.arena(arenas[4], &whole.userdata);
    writer.arena(arenas[5], &whole.threads);
    writer.word(header::INTERRUPTED, waiting.interrupted);
    writer.words(header::OUT, &userdata(whole.out.map(|(d, _)| d)));
    writer.words(header::REMAINING, &long(waiting.remaining));
}

/// The same in new buffers.
#[must_use]
pub fn transcribed(whole: &Snapshot, waiting: Waiting) -> Words {
    let mut heap = empty();
    transcribe(whole, waiting, &mut heap);
    heap
}

/// Buffers of no length, to be transcribed into.
#[must_use]
pub fn empty() -> Words {
    Words {
        words: Vec::new(),
        bytes: Vec::new(),
    }
}
