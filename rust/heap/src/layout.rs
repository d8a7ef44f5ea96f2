//! Where everything lies in the words of a heap, from its sizes. Each part begins where the one
//! before it ends: the header; for each arena colours, generations, links and extents, a word for
//! each slot in each; the four lists; prototypes, main stack, main open list, frames; the bodies of
//! the six arenas. Written apart from crates/layout, and held to what the program layout_print
//! prints.

use oracle::Sizes;

/// The places of the header. The ten sizes stand first.
pub mod header {
    pub const PROTOTYPES: usize = 10;
    pub const TOP: usize = 11;
    pub const OPENS: usize = 12;
    pub const CI: usize = 13;
    pub const ERROR: usize = 14;
    pub const HOOK: usize = 17;
    pub const GLOBAL: usize = 20;
    pub const REGISTRY: usize = 22;
    pub const NAME_MODE: usize = 24;
    pub const NAME_GC: usize = 26;
    pub const METATABLES: usize = 28;
    pub const LIMIT: usize = 46;
    pub const PAUSE: usize = 48;
    pub const STEPMUL: usize = 49;
    pub const CREATION: usize = 50;
    pub const DAMAGE: usize = 52;
    pub const PHASE: usize = 53;
    pub const WHITE: usize = 54;
    pub const CURSOR: usize = 55;
    pub const TOTAL: usize = 57;
    pub const PEAK: usize = 58;
    pub const ESTIMATE: usize = 59;
    pub const THRESHOLD: usize = 60;
    pub const DEBT: usize = 62;
    pub const INTERRUPTED: usize = 64;
    pub const OUT: usize = 65;
    pub const REMAINING: usize = 67;
    /// The counts of gray, grayagain, weak and queue.
    pub const LISTS: usize = 69;
    /// Head, fresh index and count of each arena.
    pub const ARENAS: usize = 73;
    pub const WORDS: usize = 91;
}

/// The words of a record of each arena, of a prototype, an item, a value and a handle; the bytes of
/// a string.
const RECORDS: [usize; 6] = [1, 580, 53, 4, 7, 268];
pub const PROTO: usize = 59;
pub const ITEM: usize = 3;
pub const VALUE: usize = 3;
pub const HANDLE: usize = 2;
pub const STRING: usize = 64;

/// An arena: the place of its three words of the header, of its first colour and of its first body.
#[derive(Clone, Copy, Debug)]
pub struct Arena {
    pub top: usize,
    pub base: usize,
    pub slots: usize,
    pub bodies: usize,
    pub stride: usize,
}

/// A working list: the place of its count, of its first item, and how many it has room for.
#[derive(Clone, Copy, Debug)]
pub struct List {
    pub count: usize,
    pub base: usize,
    pub room: usize,
}

/// The places of one heap.
#[derive(Clone, Debug)]
pub struct Layout {
    pub arenas: [Arena; 6],
    /// Gray, grayagain, weak and queue.
    pub lists: [List; 4],
    /// The prototypes; all that marking writes past the header lies below.
    pub protos: usize,
    /// The main stack, the main open list and the frames.
    pub stack: usize,
    pub opens: usize,
    pub frames: usize,
    /// What the heap needs.
    pub words: usize,
    pub bytes: usize,
}

impl Layout {
    #[must_use]
    pub fn new(sizes: Sizes) -> Self {
        let [
            strings,
            tables,
            closures,
            upvalues,
            userdata,
            threads,
            protos,
            stack,
            opens,
            frames,
        ] = <[u32; 10]>::from(sizes).map(|n| n as usize);
        let slots = [strings, tables, closures, upvalues, userdata, threads];
        let mut end = header::WORDS;
        let mut next = |words: usize| {
            end += words;
            end - words
        };
        let bases = slots.map(|n| next(4 * n));
        let gray = tables + closures + threads + 1;
        let grayagain = tables + 2 * threads + 1;
        let rooms = [gray, grayagain, 2 * tables, userdata];
        let lists = std::array::from_fn(|k| List {
            count: header::LISTS + k,
            base: next(ITEM * rooms[k]),
            room: rooms[k],
        });
        let protos = next(PROTO * protos);
        let (stack, opens, frames) = (next(VALUE * stack), next(HANDLE * opens), next(frames));
        let arenas = std::array::from_fn(|k| Arena {
            top: header::ARENAS + 3 * k,
            base: bases[k],
            slots: slots[k],
            bodies: next(RECORDS[k] * slots[k]),
            stride: RECORDS[k],
        });
        Self {
            arenas,
            lists,
            protos,
            stack,
            opens,
            frames,
            words: end,
            bytes: STRING * strings,
        }
    }
}
