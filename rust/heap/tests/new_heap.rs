//! A new heap of ours beside the source's, word by word and read by read, with a fixed seed; sizes
//! and lengths that are refused.

mod common;

use common::tried;
use heap::sizes::{RANGES, SMALLEST, outside, within};
use heap::{Layout, Refused, Words, compared, needed, needed_in};
use oracle::random::Random;
use oracle::{Oracle, Refusal, Sizes};

const SEED: u64 = 11;

/// The sizes that small scripts run with.
const SMALL: [u32; 10] = [16, 16, 0, 0, 16, 0, 0, 32, 0, 1];

/// Buffers of these lengths, with odd words in them.
fn odd(words: usize, bytes: usize) -> Words {
    let word = |k: usize| 0x9e37_79b1_u32.wrapping_mul(k as u32 + 1) | 1;
    Words {
        words: (0..words).map(word).collect(),
        bytes: (0..bytes).map(|k| (k % 255) as u8 + 1).collect(),
    }
}

/// Odd buffers as long as a heap of these sizes needs, and that much longer.
fn lent(sizes: [u32; 10], more: usize) -> Words {
    let layout = Layout::new(Sizes::from(sizes));
    odd(layout.words + more, layout.bytes + more)
}

#[test]
fn a_thousand_choices_within_the_ranges() {
    let mut random = Random::new(SEED);
    for turn in 0..1000 {
        let sizes = within(&mut random);
        let layout = Layout::new(Sizes::from(sizes));
        assert_eq!(
            needed(&sizes),
            Ok((layout.words, layout.bytes)),
            "{sizes:?}"
        );
        let more = random.below(3) as usize;
        let (before, mut heap) = (lent(sizes, more), lent(sizes, more));
        assert_eq!(heap.make_heap(&sizes), Ok(()), "{sizes:?}");
        let same = compared(&heap, sizes);
        assert_eq!(same, Ok(()), "seed {SEED}, turn {turn}, sizes {sizes:?}");
        assert_eq!(heap.words[layout.words..], before.words[layout.words..]);
        assert_eq!(heap.bytes[layout.bytes..], before.bytes[layout.bytes..]);
    }
}

#[test]
fn a_thousand_choices_outside_are_refused_with_4_and_change_nothing() {
    let mut random = Random::new(SEED);
    for turn in 0..1000 {
        let sizes = outside(&mut random);
        let before = odd(1300 + random.below(5000) as usize, 128);
        let mut heap = before.clone();
        let place = format!("seed {SEED}, turn {turn}, sizes {sizes:?}");
        assert_eq!(heap.make_heap(&sizes), Err(Refused(4)), "{place}");
        assert_eq!(heap, before, "{place}");
        assert_eq!(needed(&sizes), Err(Refused(4)), "{place}");
        let source = Oracle::new(Sizes::from(sizes)).err();
        assert_eq!(source, Some(Refusal(4)), "{place}");
        let unmade = tried(&heap, 4);
        assert!(unmade.iter().all(|q| q.is_refused(1)), "{place}");
    }
}

#[test]
fn each_end_of_each_range() {
    for (place, (least, most)) in RANGES.into_iter().enumerate() {
        for (size, fits) in [(least, true), (most, true), (most + 1, false)] {
            let mut sizes = SMALLEST;
            sizes[place] = size;
            assert_eq!(needed(&sizes).is_ok(), fits, "{sizes:?}");
            if fits {
                let mut heap = lent(sizes, 0);
                assert_eq!(heap.make_heap(&sizes), Ok(()));
                assert_eq!(compared(&heap, sizes), Ok(()), "{sizes:?}");
            }
        }
        if least > 0 {
            let mut sizes = SMALLEST;
            sizes[place] = least - 1;
            assert_eq!(needed(&sizes), Err(Refused(4)), "{sizes:?}");
        }
    }
}

/// Makes a heap in buffers of these lengths; if it is refused, nothing has changed.
fn made_in(sizes: [u32; 10], words: usize, bytes: usize) -> Result<(), Refused> {
    let before = odd(words, bytes);
    let mut heap = before.clone();
    let answer = heap.make_heap(&sizes);
    assert!(answer.is_ok() || heap == before, "{sizes:?}");
    answer
}

#[test]
fn buffers_too_short_are_refused_with_1_and_left_alone() {
    let mut random = Random::new(SEED);
    let mut choices = vec![SMALLEST, SMALL];
    choices.extend((0..100).map(|_| within(&mut random)));
    for sizes in choices {
        let (words, bytes) = needed(&sizes).expect("sizes in range");
        assert_eq!(made_in(sizes, words, bytes), Ok(()));
        assert_eq!(made_in(sizes, words - 1, bytes), Err(Refused(1)));
        assert_eq!(made_in(sizes, words, bytes - 1), Err(Refused(1)));
        assert_eq!(made_in(sizes, words - 1, bytes - 1), Err(Refused(1)));
        assert_eq!(made_in(sizes, 0, 0), Err(Refused(1)));
    }
}

#[test]
fn sizes_are_tested_before_lengths() {
    assert_eq!(made_in([0; 10], 0, 0), Err(Refused(4)));
    assert_eq!(needed_in(&[0; 10], &mut []), Err(Refused(4)));
    assert_eq!(needed_in(&SMALLEST, &mut []), Err(Refused(1)));
}

#[test]
fn any_other_count_of_sizes_is_4() {
    for count in (0..20).filter(|n| *n != 10) {
        let sizes: Vec<u32> = SMALLEST.into_iter().chain([1; 10]).take(count).collect();
        let before = odd(2000, 200);
        let mut heap = before.clone();
        assert_eq!(heap.make_heap(&sizes), Err(Refused(4)));
        assert_eq!(heap, before);
        assert_eq!(needed(&sizes), Err(Refused(4)));
    }
}

#[test]
fn an_answer_takes_two_words() {
    let mut out = [7; 5];
    assert_eq!(needed_in(&SMALLEST, &mut out[..1]), Err(Refused(1)));
    assert_eq!(needed_in(&[5; 9], &mut out), Err(Refused(4)));
    assert_eq!(out, [7; 5]);
    assert_eq!(needed_in(&SMALLEST, &mut out), Ok(()));
    assert_eq!(out, [1300, 128, 7, 7, 7]);
}

#[test]
fn a_difference_is_seen_at_every_word_and_byte() {
    for sizes in [SMALLEST, SMALL] {
        let mut heap = lent(sizes, 0);
        heap.make_heap(&sizes).expect("room");
        assert_eq!(compared(&heap, sizes), Ok(()));
        for k in 0..heap.words.len() {
            heap.words[k] ^= 2;
            assert!(compared(&heap, sizes).is_err(), "word {k}");
            heap.words[k] ^= 2;
        }
        for k in 0..heap.bytes.len() {
            heap.bytes[k] ^= 1;
            assert!(compared(&heap, sizes).is_err(), "byte {k}");
            heap.bytes[k] ^= 1;
        }
    }
}
