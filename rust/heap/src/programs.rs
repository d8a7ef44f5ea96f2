//! What the programs heap_header and heap_lengths of crates/ print, said by the source: the header
//! of its new heap in the same words, and which sizes it takes.
//!
//! Four lines are not the source's, since it has no buffers: the damage mark; how many words and
//! bytes a heap needs, which [`Layout`] says, and that the rest is untouched; and a refusal for a
//! buffer shorter than that.

use crate::layout::Layout;
use crate::sizes::SMALLEST;
use oracle::{Oracle, Phase, Refusal, Sizes, Slots, Snapshot, Value};
use std::fmt::Write;

/// heapscript's heap.
const HEAPSCRIPT: [u32; 10] = [16, 16, 0, 0, 16, 0, 0, 32, 0, 1];

fn none(empty: bool) -> &'static str {
    if empty { "none" } else { "some" }
}

/// The name of a phase.
#[must_use]
pub fn phase(phase: Phase) -> &'static str {
    match phase {
        Phase::Pause => "Pause",
        Phase::Propagate => "Propagate",
        Phase::SweepString => "SweepString",
        Phase::Sweep => "Sweep",
        Phase::Finalize => "Finalize",
    }
}

fn arena<R>(name: &str, slots: &Slots<R>, room: u32) -> String {
    let (occupied, fresh) = (slots.occupied, slots.list.len());
    let chain = none(slots.chain.is_empty());
    format!(
        "{name}: {occupied} of {room} slots occupied, fresh index {fresh}, free chain: {chain}\n"
    )
}

fn main_record(whole: &Snapshot) -> String {
    let (main, sizes) = (&whole.main, whole.sizes);
    let (protos, opens) = (whole.prototypes.len(), main.open.len());
    let values = [main.error, main.hook] == [Value::Nil; 2];
    let types = main.type_metatables.iter().all(Option::is_none);
    let mut text = String::new();
    _ = writeln!(text, "prototypes: {protos} of {}", sizes.prototypes);
    _ = writeln!(text, "main stack: top {} of {}", main.top, sizes.stack);
    _ = writeln!(text, "main open list: {opens} of {}", sizes.open);
    _ = writeln!(text, "frames: ci {} of {}", main.ci, sizes.frames);
    _ = writeln!(text, "error and hook value: {}", none(values));
    for (name, table) in [("global", main.global), ("registry", main.registry)] {
        let (index, generation) = (table.index, table.generation);
        _ = writeln!(text, "{name}: table {index}, generation {generation}");
    }
    for name in ["__mode", "__gc"] {
        let place = |s: &oracle::Slot<Vec<u8>>| s.record.as_deref() == Some(name.as_bytes());
        let index = whole.strings.list.iter().position(place);
        let slot = index.map(|i| format!("{i}, generation {}", whole.strings.list[i].generation));
        let slot = slot.unwrap_or("none".into());
        _ = writeln!(text, "name {name}: string {slot}");
    }
    _ = writeln!(text, "type metatables: {}", none(types));
    text
}

fn counters(whole: &Snapshot) -> String {
    let counters = &whole.counters;
    let limit = counters.limit.map_or("none".into(), |n| n.to_string());
    let white = match counters.white {
        oracle::Colour::White0 => "first",
        oracle::Colour::White1 => "second",
        _ => "odd",
    };
    let (arena, slot) = counters.cursor;
    [
        format!("limit: {limit}"),
        format!("pause: {}", counters.pause),
        format!("stepmul: {}", counters.stepmul),
        format!("creation number: {}", counters.number),
        "damage mark: none".into(),
        format!("phase: {}", phase(counters.phase)),
        format!("current white: {white}"),
        format!("cursor: arena {arena}, slot {slot}"),
        format!("total: {}", counters.total),
        format!("peak: {}", counters.peak),
        format!("estimate: {}", counters.estimate),
        format!("threshold: {}", counters.threshold),
        format!("debt: {}", counters.debt),
        String::new(),
    ]
    .join("\n")
}

fn lists(whole: &Snapshot) -> String {
    [
        format!("finalizer out: {}", none(whole.out.is_none())),
        format!("gray: {} items", whole.gray.len()),
        format!("grayagain: {} items", whole.grayagain.len()),
        format!("weak: {} items", whole.weak.len()),
        format!("queue: {} items", whole.queue.len()),
        String::new(),
    ]
    .join("\n")
}

fn arenas(whole: &Snapshot) -> String {
    let sizes = whole.sizes;
    [
        arena("strings", &whole.strings, sizes.strings),
        arena("tables", &whole.tables, sizes.tables),
        arena("functions", &whole.closures, sizes.closures),
        arena("upvalues", &whole.upvalues, sizes.upvalues),
        arena("userdata", &whole.userdata, sizes.userdata),
        arena("threads", &whole.threads, sizes.threads),
    ]
    .concat()
}

fn header_of(name: &str, sizes: [u32; 10]) -> String {
    let sizes = Sizes::from(sizes);
    let Layout { words, bytes, .. } = Layout::new(sizes);
    let whole = match Oracle::new(sizes) {
        Ok(heap) => heap.snapshot(),
        Err(Refusal(n)) => return format!("{name}: refused {n}\n"),
    };
    [
        format!("{name}: made\n"),
        main_record(&whole),
        counters(&whole),
        lists(&whole),
        arenas(&whole),
        format!("words from {words} on: untouched\n"),
        format!("bytes from {bytes} on: untouched\n"),
    ]
    .concat()
}

/// What heap_header prints.
#[must_use]
pub fn header() -> String {
    header_of("the smallest heap", SMALLEST) + &header_of("heapscript's heap", HEAPSCRIPT)
}

/// What making a heap of these sizes in buffers of these lengths answers.
fn made(sizes: [u32; 10], words: usize, bytes: usize) -> String {
    let sizes = Sizes::from(sizes);
    if let Err(Refusal(n)) = Oracle::new(sizes) {
        return format!("refused {n}\n");
    }
    let needed = Layout::new(sizes);
    if words < needed.words || bytes < needed.bytes {
        return "refused 1\n".into();
    }
    "made\n".into()
}

/// The names of the sizes, and which of each heap_lengths tries.
const TRIED: [(&str, &[u32]); 10] = [
    ("strings", &[1, 2, 4096, 4097]),
    ("tables", &[1, 2, 4096, 4097]),
    ("functions", &[4096, 4097]),
    ("upvalues", &[4096, 4097]),
    ("userdata", &[4096, 4097]),
    ("threads", &[4096, 4097]),
    ("prototypes", &[256, 257]),
    ("main stack", &[256, 257]),
    ("main open list", &[64, 65]),
    ("frames", &[0, 1, 32, 33]),
];

/// What heap_lengths prints.
#[must_use]
pub fn lengths() -> String {
    let needed = Layout::new(Sizes::from(SMALLEST));
    let (words, bytes) = (needed.words, needed.bytes);
    let mut text = String::new();
    for n in words - 3..=words + 3 {
        text += &format!("{n} words: {}", made(SMALLEST, n, bytes));
    }
    for n in bytes - 3..=bytes + 3 {
        text += &format!("{n} bytes: {}", made(SMALLEST, words, n));
    }
    for (place, (name, tried)) in TRIED.into_iter().enumerate() {
        for n in tried {
            let mut sizes = SMALLEST;
            sizes[place] = *n;
            text += &format!("{name} {n}: {}", made(sizes, words, bytes));
        }
    }
    text
}
