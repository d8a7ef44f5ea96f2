//! Every length around the needed one.

use heap::Words;
use heap::layout::{Layout, header};

/// Lengths next to none, to the header's parts and to what is needed.
fn lengths(needed: usize, parts: &[usize]) -> Vec<usize> {
    let near = (needed.saturating_sub(2)..=needed + 2).collect::<Vec<_>>();
    let mut all = [parts, &near].concat();
    all.sort_unstable();
    all.dedup();
    all
}

/// The heap in buffers of each length; what is longer ends in an odd word or byte.
#[must_use]
pub fn cut(heap: &Words, layout: &Layout) -> Vec<Words> {
    let parts = [
        0,
        1,
        9,
        10,
        11,
        header::DAMAGE,
        header::DAMAGE + 1,
        header::WORDS - 1,
        header::WORDS,
        header::WORDS + 1,
    ];
    let mut all = Vec::new();
    for words in lengths(layout.words, &parts) {
        for bytes in lengths(layout.bytes, &[0, 1, 63, 64, 65]) {
            let mut heap = heap.clone();
            heap.words.resize(words, 7);
            heap.bytes.resize(bytes, 7);
            all.push(heap);
        }
    }
    all
}
