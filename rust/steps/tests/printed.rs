//! The layout that Rust computes is the one that the program layout_print prints, place by place.

use heap::layout::{HANDLE, ITEM, Layout, PROTO, VALUE};
use heap::sizes::{RANGES, SMALLEST};
use oracle::Sizes;

const PRINTED: &str = include_str!("../../../crates/layout_print/stdout");

/// A heap as the program prints it.
fn text(name: &str, sizes: [u32; 10]) -> String {
    let layout = Layout::new(Sizes::from(sizes));
    let mut text = format!(
        "{name}: {} words, {} bytes, boundary at {}\n",
        layout.words, layout.bytes, layout.protos
    );
    let kinds = [
        "strings",
        "tables",
        "functions",
        "upvalues",
        "userdata",
        "threads",
    ];
    for (kind, arena) in kinds.iter().zip(layout.arenas) {
        let width = if *kind == "strings" { 64 } else { 0 };
        text += &format!(
            "  {kind}: top {}, table at {}, {} slots, bodies at {}, stride {}, width {width}\n",
            arena.top, arena.base, arena.slots, arena.bodies, arena.stride
        );
    }
    let lists = ["gray", "grayagain", "weak", "queue"];
    for (name, list) in lists.iter().zip(layout.lists) {
        text += &format!(
            "  {name}: count at {}, items at {}, room {}, stride {ITEM}\n",
            list.count, list.base, list.room
        );
    }
    let parts = [
        ("prototypes", layout.protos, PROTO),
        ("main stack", layout.stack, VALUE),
        ("main open list", layout.opens, HANDLE),
        ("frames", layout.frames, 1),
    ];
    for ((name, at, stride), room) in parts.into_iter().zip(&sizes[6..]) {
        text += &format!("  {name}: at {at}, room {room}, stride {stride}\n");
    }
    text
}

#[test]
fn three_heaps() {
    let scripts = [16, 16, 0, 0, 16, 0, 0, 32, 0, 1];
    for (name, sizes) in [
        ("the smallest heap", SMALLEST),
        ("heapscript's heap", scripts),
        ("the largest heap", RANGES.map(|(_, most)| most)),
    ] {
        let text = text(name, sizes);
        assert!(PRINTED.contains(&text), "{text}");
    }
}
