//! Test 1: the header alone and the two lengths. Every stored size, count, phase and white within its
//! range, and buffers that are long enough.

use heap::layout::{Layout, header};
use heap::sizes::RANGES;
use oracle::Sizes;

/// The tracked total is at most this.
pub const MOST_TOTAL: u32 = (1 << 31) - 1;

/// Whether each of ten sizes lies within its range.
pub fn sizes_fit(sizes: [u32; 10]) -> bool {
    let fits = |(size, (least, most)): (u32, (u32, u32))| least <= size && size <= most;
    sizes.into_iter().zip(RANGES).all(fits)
}

/// The layout of a heap that test 1 lets in.
pub fn accepted(words: &[u32], bytes: &[u8]) -> Option<Layout> {
    let sizes: [u32; 10] = words.get(..header::WORDS)?[..10].try_into().ok()?;
    if !sizes_fit(sizes) {
        return None;
    }
    let layout = Layout::new(Sizes::from(sizes));
    let long = layout.words <= words.len() && layout.bytes <= bytes.len();
    let counts = counts_fit(words, &layout) && main_fits(words, sizes);
    (long && counts && state_fits(words)).then_some(layout)
}

/// Fresh index to the slots, count to the fresh index; each list to its room.
fn counts_fit(words: &[u32], layout: &Layout) -> bool {
    let arena = |a: &heap::layout::Arena| {
        words[a.top + 1] as usize <= a.slots && words[a.top + 2] <= words[a.top + 1]
    };
    let list = |l: &heap::layout::List| words[l.count] as usize <= l.room;
    layout.arenas.iter().all(arena) && layout.lists.iter().all(list)
}

/// Prototypes used, top and open count to their sizes; the current frame below the frames.
fn main_fits(words: &[u32], [.., protos, stack, opens, frames]: [u32; 10]) -> bool {
    words[header::PROTOTYPES] <= protos
        && words[header::TOP] <= stack
        && words[header::OPENS] <= opens
        && words[header::CI] < frames
}

fn state_fits(words: &[u32]) -> bool {
    words[header::PHASE] <= 4
        && matches!(words[header::WHITE], 1 | 2)
        && words[header::TOTAL] <= MOST_TOTAL
}
