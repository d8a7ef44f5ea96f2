//! What stands at each word and byte, by name, in the words of docs/LAYOUT.md.

use heap::layout::{Arena, HANDLE, ITEM, Layout, PROTO, STRING, VALUE, header};

/// The parts of a field, one for each word.
type Parts = &'static [&'static str];

const WORD: Parts = &[""];
const BITS: Parts = &[" low", " high"];
const VALUES: Parts = &[" tag", " low", " high"];
const HANDLES: Parts = &[" index", " generation"];
const OPTIONAL: Parts = &[" index + 1", " generation"];
const ITEMS: Parts = &[" kind", " index", " generation"];

/// A field of the header or of a record: its first word, its name and its parts.
type Field = (usize, &'static str, Parts);

const SIZES: [&str; 10] = [
    "slots of strings",
    "slots of tables",
    "slots of functions",
    "slots of upvalues",
    "slots of userdata",
    "slots of threads",
    "prototypes",
    "main stack places",
    "main open list places",
    "frames",
];

const HEADER: &[Field] = &[
    (header::PROTOTYPES, "prototypes used", WORD),
    (header::TOP, "main top", WORD),
    (header::OPENS, "main open count", WORD),
    (header::CI, "ci", WORD),
    (header::ERROR, "main error value", VALUES),
    (header::HOOK, "main hook value", VALUES),
    (header::GLOBAL, "global", OPTIONAL),
    (header::REGISTRY, "registry", OPTIONAL),
    (header::NAME_MODE, "name __mode", OPTIONAL),
    (header::NAME_GC, "name __gc", OPTIONAL),
    (header::LIMIT, "limit", BITS),
    (header::PAUSE, "pause", WORD),
    (header::STEPMUL, "stepmul", WORD),
    (header::CREATION, "creation number", BITS),
    (header::DAMAGE, "damage mark", WORD),
    (header::PHASE, "phase", WORD),
    (header::WHITE, "current white", WORD),
    (header::CURSOR, "cursor", &[" arena", " slot"]),
    (header::TOTAL, "total", WORD),
    (header::PEAK, "peak", WORD),
    (header::ESTIMATE, "estimate", WORD),
    (header::THRESHOLD, "threshold", BITS),
    (header::DEBT, "debt", BITS),
    (
        header::INTERRUPTED,
        "what the finalizer that is out interrupted",
        WORD,
    ),
    (header::OUT, "userdata that is out", OPTIONAL),
    (header::REMAINING, "remaining budget", BITS),
];

const LISTS: [&str; 4] = ["gray", "grayagain", "weak", "queue"];

/// What an arena has in the header, and beside each slot.
const TOPS: [&str; 3] = ["head of", "fresh index of", "count of"];
const SIDES: [&str; 4] = ["colour of", "generation of", "link of", "extent of"];

/// The arenas, and a slot of each.
const ARENAS: [&str; 6] = [
    "strings",
    "tables",
    "functions",
    "upvalues",
    "userdata",
    "threads",
];
const KINDS: [&str; 6] = [
    "string", "table", "function", "upvalue", "userdata", "thread",
];

const TABLE: &[Field] = &[
    (0, "metatable", OPTIONAL),
    (2, "array size", WORD),
    (3, "nodes", WORD),
];
const FUNCTION: &[Field] = &[
    (0, "kind", WORD),
    (1, "env", OPTIONAL),
    (3, "prototype number", WORD),
    (4, "count", WORD),
];
const UPVALUE: &[Field] = &[(0, "closed", WORD), (1, "value", VALUES)];
const USERDATA: &[Field] = &[
    (0, "metatable", OPTIONAL),
    (2, "env", OPTIONAL),
    (4, "creation number", BITS),
    (6, "finalized", WORD),
];
const THREAD: &[Field] = &[
    (0, "global", OPTIONAL),
    (2, "hook value", VALUES),
    (5, "error value", VALUES),
    (8, "stack size", WORD),
    (9, "top", WORD),
    (10, "open count", WORD),
    (11, "suspended count", WORD),
];
const PROTOTYPE: &[Field] = &[
    (0, "constants", WORD),
    (1, "nested", WORD),
    (2, "parent", WORD),
];

fn field(fields: &[Field], place: usize) -> Option<String> {
    let holds = |f: &&Field| (f.0..f.0 + f.2.len()).contains(&place);
    let (first, name, parts) = fields.iter().find(holds)?;
    Some(format!("{name}{}", parts[place - first]))
}

/// Which of `count` rows of `stride` words from `base` on, and which word of it.
fn row(place: usize, base: usize, stride: usize, count: usize) -> Option<(usize, usize)> {
    let inside = (base..base + stride * count).contains(&place);
    inside.then(|| ((place - base) / stride, (place - base) % stride))
}

/// One of `count` equal fields from `base` on.
fn one_of(name: &str, parts: Parts, place: usize, base: usize, count: usize) -> Option<String> {
    let (i, part) = row(place, base, parts.len(), count)?;
    Some(format!("{name} {i}{}", parts[part]))
}

fn header_word(place: usize) -> String {
    let metatable = || one_of("type metatable", OPTIONAL, place, header::METATABLES, 9);
    let arena = || {
        let (k, part) = row(place, header::ARENAS, TOPS.len(), ARENAS.len())?;
        Some(format!("{} {}", TOPS[part], ARENAS[k]))
    };
    let list = || Some(format!("{} count", LISTS[place - header::LISTS]));
    let size = SIZES.get(place).map(|name| (*name).to_owned());
    let named = size.or_else(|| field(HEADER, place));
    let named = named.or_else(metatable).or_else(arena).or_else(list);
    named.expect("every word of the header has a name")
}

/// A size as LAYOUT reads it: 0 outside its range.
fn size(words: &[u32], place: usize, most: u32) -> usize {
    let stored = words.get(place).copied().unwrap_or(0);
    if stored <= most { stored as usize } else { 0 }
}

fn table_word(words: &[u32], body: usize, at: usize) -> Option<String> {
    let (array, nodes) = (size(words, body + 2, 64), size(words, body + 3, 64));
    let pairs = 4 + VALUE * array;
    let node = || {
        let (j, word) = row(at, pairs, 2 * VALUE, nodes)?;
        let half = ["key", "value"][word / VALUE];
        Some(format!("node {j} {half}{}", VALUES[word % VALUE]))
    };
    field(TABLE, at)
        .or_else(|| one_of("array", VALUES, at, 4, array))
        .or_else(node)
}

fn function_word(words: &[u32], body: usize, at: usize) -> Option<String> {
    let held = size(words, body + 4, 16);
    let rest = match words.get(body) {
        Some(1) => one_of("value", VALUES, at, 5, held),
        _ => one_of("upvalue", HANDLES, at, 5, held),
    };
    field(FUNCTION, at).or(rest)
}

fn thread_word(words: &[u32], body: usize, at: usize) -> Option<String> {
    field(THREAD, at)
        .or_else(|| one_of("open", HANDLES, at, 12, 16))
        .or_else(|| one_of("suspended", HANDLES, at, 44, 16))
        .or_else(|| one_of("stack", VALUES, at, 76, size(words, body + 8, 64)))
}

/// Word `at` of the body of slot `i` of an arena.
fn body_word(kind: usize, words: &[u32], arena: Arena, i: usize, at: usize) -> String {
    let body = arena.bodies + i * arena.stride;
    let named = match kind {
        0 => Some("length".to_owned()),
        1 => table_word(words, body, at),
        2 => function_word(words, body, at),
        3 => field(UPVALUE, at),
        4 => field(USERDATA, at),
        _ => thread_word(words, body, at),
    };
    let name = named.unwrap_or_else(|| format!("word {at}, past its record"));
    format!("{} {i} {name}", KINDS[kind])
}

fn arena_word(kind: usize, words: &[u32], arena: Arena, place: usize) -> Option<String> {
    let side = row(place, arena.base, arena.slots, SIDES.len());
    let body = row(place, arena.bodies, arena.stride, arena.slots);
    side.map(|(k, i)| format!("{} {} {i}", SIDES[k], KINDS[kind]))
        .or_else(|| body.map(|(i, at)| body_word(kind, words, arena, i, at)))
}

fn prototype_word(base: usize, count: usize, place: usize) -> Option<String> {
    let (n, at) = row(place, base, PROTO, count)?;
    let name = field(PROTOTYPE, at)
        .or_else(|| one_of("constant", VALUES, at, 3, 16))
        .or_else(|| one_of("nested", WORD, at, 51, 8));
    Some(format!("prototype {n} {}", name?))
}

/// The name of a word. The words say how long each record is.
#[must_use]
pub fn word(layout: &Layout, words: &[u32], place: usize) -> String {
    if place < header::WORDS {
        return header_word(place);
    }
    let Layout {
        protos,
        stack,
        opens,
        frames,
        ..
    } = *layout;
    let slot = (0..6).find_map(|k| arena_word(k, words, layout.arenas[k], place));
    let item = || {
        let one = |k: usize| {
            let list = layout.lists[k];
            one_of(
                &format!("{} item", LISTS[k]),
                ITEMS,
                place,
                list.base,
                list.room,
            )
        };
        (0..4).find_map(one)
    };
    slot.or_else(item)
        .or_else(|| prototype_word(protos, (stack - protos) / PROTO, place))
        .or_else(|| one_of("main stack", VALUES, place, stack, (opens - stack) / VALUE))
        .or_else(|| {
            one_of(
                "main open",
                HANDLES,
                place,
                opens,
                (frames - opens) / HANDLE,
            )
        })
        .or_else(|| {
            one_of(
                "frame",
                WORD,
                place,
                frames,
                layout.arenas[0].bodies - frames,
            )
        })
        .unwrap_or_else(|| format!("word {place}, past the heap"))
}

/// The name of a byte.
#[must_use]
pub fn byte(layout: &Layout, place: usize) -> String {
    if place < layout.bytes {
        format!("byte {} of string {}", place % STRING, place / STRING)
    } else {
        format!("byte {place}, past the heap")
    }
}

const _: () = assert!(ITEMS.len() == ITEM && VALUES.len() == VALUE && HANDLES.len() == HANDLE);
