//! Words that no calls make: damaged chains, and one word changed anywhere.

use heap::Words;
use heap::layout::{Arena, Layout, header};
use oracle::Sizes;
use oracle::random::Random;

/// What was done, and the heap with it.
pub struct Damage {
    pub what: &'static str,
    pub heap: Words,
}

fn layout(heap: &Words) -> Layout {
    let sizes: [u32; 10] = heap.words[..10].try_into().expect("ten sizes");
    Layout::new(Sizes::from(sizes))
}

/// The slots of a sound chain, from its head.
fn chain(words: &[u32], a: Arena) -> Vec<usize> {
    let mut slots = Vec::new();
    let mut next = words[a.top] as usize;
    while next != 0 {
        slots.push(next - 1);
        next = words[a.base + 2 * a.slots + next - 1] as usize;
    }
    slots
}

/// An unknown colour is free: this alone of the ways below leaves a chain as it should be.
pub const HARMLESS: &str = "an unknown colour in the chain";

/// Each chain of a heap that passes, damaged in all the ways below.
#[must_use]
pub fn damaged_chains(heap: &Words) -> Vec<Damage> {
    let arenas = layout(heap).arenas;
    arenas.iter().flat_map(|a| damaged(heap, *a)).collect()
}

fn damaged(heap: &Words, a: Arena) -> Vec<Damage> {
    let slots = chain(&heap.words, a);
    let used = heap.words[a.top + 1] as usize;
    let link = |i: usize| a.base + 2 * a.slots + i;
    let number = |i: usize| u32::try_from(i + 1).expect("an index fits a word");
    let mut all = Vec::new();
    let mut put = |what: &'static str, changes: &[(usize, u32)]| {
        let mut heap = heap.clone();
        for (place, word) in changes {
            heap.words[*place] = *word;
        }
        all.push(Damage { what, heap });
    };
    put("a head past the fresh index", &[(a.top, number(used))]);
    put("a head past all", &[(a.top, u32::MAX)]);
    if let Some(taken) = (0..used).find(|i| !slots.contains(i)) {
        put("an occupied slot at the head", &[(a.top, number(taken))]);
        let joined = [(link(taken), heap.words[a.top]), (a.top, number(taken))];
        put("an occupied slot before the head", &joined);
        put("a free slot in no chain", &[(a.base + taken, 0)]);
        put("an unknown colour in no chain", &[(a.base + taken, 9)]);
    }
    let (Some(first), Some(last)) = (slots.first(), slots.last()) else {
        return all;
    };
    put("no head", &[(a.top, 0)]);
    put("the last names itself", &[(link(*last), number(*last))]);
    put("the last names the first", &[(link(*last), number(*first))]);
    put(
        "an end past the fresh index",
        &[(link(*last), number(used))],
    );
    put("an occupied slot in the chain", &[(a.base + *first, 1)]);
    put(HARMLESS, &[(a.base + *first, 5)]);
    put("the first left out", &[(a.top, heap.words[link(*first)])]);
    for pair in slots.windows(2) {
        let after = heap.words[link(pair[1])];
        put("cut", &[(link(pair[0]), 0)]);
        put("one left out", &[(link(pair[0]), after)]);
        put("back to itself", &[(link(pair[0]), number(pair[0]))]);
    }
    all
}

/// One word changed: of the header's state and arenas, of what an arena has for a slot, or of a
/// record; to a small number, one near what it was, or any.
///
/// # Panics
/// If the words are no heap's.
#[must_use]
pub fn damaged_word(heap: &Words, random: &mut Random) -> Words {
    let arenas = layout(heap).arenas;
    let mut heap = heap.clone();
    let a = random.pick(&arenas).expect("six arenas");
    let bound = |n: usize| u32::try_from(n).expect("a place fits a word");
    let used = heap.words[a.top + 1];
    let slot = random.below(used) as usize;
    let place = match random.below(8) {
        0 => header::DAMAGE + random.below(bound(header::WORDS - header::DAMAGE)) as usize,
        1 => a.top + random.below(3) as usize,
        2 => a.base + random.below(bound(4 * a.slots)) as usize,
        3 => a.base + slot,
        4 => a.base + 2 * a.slots + slot,
        _ => a.bodies + slot * a.stride + random.below(bound(a.stride.min(40))) as usize,
    };
    let word = heap.words.get(place).copied().unwrap_or(0);
    let damage = match random.below(5) {
        0 => random.below(10),
        1 => word.wrapping_add(1),
        2 => word.wrapping_sub(1),
        3 => random.below(used + 2),
        _ => random.bits() as u32,
    };
    if let Some(old) = heap.words.get_mut(place) {
        *old = damage;
    }
    heap
}
