//! The new heap that ours makes is the source's new heap, transcribed: every word and every byte.

use heap::Words;
use heap::layout::Layout;
use heap::sizes::{RANGES, SMALLEST, within};
use heap::words::{Waiting, transcribed};
use oracle::random::Random;
use oracle::{Oracle, Sizes};

const SEED: u64 = 21;

/// The new heap that ours makes in odd buffers, and the source's.
fn both(sizes: [u32; 10]) -> (Words, Words) {
    let layout = Layout::new(Sizes::from(sizes));
    let mut ours = Words {
        words: (0..layout.words).map(|k| k as u32 | 1).collect(),
        bytes: vec![0xa5; layout.bytes],
    };
    assert_eq!(ours.make_heap(&sizes), Ok(()), "{sizes:?}");
    let source = Oracle::new(Sizes::from(sizes)).expect("sizes in range");
    let source = transcribed(&source.snapshot(), Waiting::default());
    (ours, source)
}

#[test]
fn a_thousand_choices_of_sizes() {
    let mut random = Random::new(SEED);
    for turn in 0..1000 {
        let sizes = within(&mut random);
        let (ours, source) = both(sizes);
        // No list of the words on a difference: there are millions.
        assert!(ours == source, "seed {SEED}, turn {turn}, sizes {sizes:?}");
    }
}

#[test]
fn each_end_of_each_range() {
    for (place, (least, most)) in RANGES.into_iter().enumerate() {
        for size in [least, most] {
            let mut sizes = SMALLEST;
            sizes[place] = size;
            let (ours, source) = both(sizes);
            assert!(ours == source, "{sizes:?}");
        }
    }
    let largest = RANGES.map(|(_, most)| most);
    let (ours, source) = both(largest);
    assert!(ours == source);
}
