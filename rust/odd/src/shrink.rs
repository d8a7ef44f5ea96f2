//! A case made small: its words and bytes become those of a new heap, part by part, as long as ours and
//! the second reading still differ on it.

use crate::finding::Case;
use heap::Words;
use heap::sizes::RANGES;

/// A new heap of the sizes that the header says, as far as the buffers go; zeros where that is none.
pub(crate) fn reference(heap: &Words) -> Words {
    let (words, bytes) = (heap.words.len(), heap.bytes.len());
    let mut base = Words {
        words: vec![0; words],
        bytes: vec![0; bytes],
    };
    let sizes = heap.words.get(..RANGES.len()).unwrap_or(&[]);
    if base.make_heap(sizes).is_err() {
        base.words.fill(0);
    }
    base
}

/// Which of the places that are other than the reference can be as it: `put` puts some of them back
/// and says whether the case still differs.
fn thinned(mut places: Vec<usize>, mut put: impl FnMut(&[usize]) -> bool) {
    let mut part = places.len();
    while part > 0 {
        let mut kept = Vec::new();
        for some in places.chunks(part) {
            if !put(some) {
                kept.extend_from_slice(some);
            }
        }
        places = kept;
        part /= 2;
    }
}

/// The places where two buffers differ.
fn odd<T: PartialEq>(one: &[T], other: &[T]) -> Vec<usize> {
    (0..one.len()).filter(|p| one[*p] != other[*p]).collect()
}

/// A smaller case that still differs.
pub(crate) fn shrunk(mut case: Case) -> Case {
    let base = reference(&case.before);
    thinned(odd(&case.before.words, &base.words), |places| {
        let before = case.before.words.clone();
        for place in places {
            case.before.words[*place] = base.words[*place];
        }
        let still = case.differs();
        if !still {
            case.before.words = before;
        }
        still
    });
    thinned(odd(&case.before.bytes, &base.bytes), |places| {
        let before = case.before.bytes.clone();
        for place in places {
            case.before.bytes[*place] = base.bytes[*place];
        }
        let still = case.differs();
        if !still {
            case.before.bytes = before;
        }
        still
    });
    case
}
