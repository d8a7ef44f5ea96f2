//! Some words of a heap changed: mostly where the collector looks first (header, lists, colours,
//! generations, chains, the beginnings of records), to numbers that mean something there.

use audit::damaged_word;
use calls::bend::EDGES;
use heap::Words;
use heap::ask::Kind;
use heap::layout::{Arena, ITEM, Layout, PROTO, header};
use oracle::random::Random;

/// A heap with 1 to so many changes.
#[must_use]
pub fn damaged(heap: &Words, most: u32, random: &mut Random) -> Words {
    let Some(layout) = reading::accepted(&heap.words, &heap.bytes) else {
        return heap.clone();
    };
    // The first one is the audit's own way of damage, half of the time.
    let mut heap = match random.below(2) {
        0 => damaged_word(heap, random),
        _ => heap.clone(),
    };
    for _ in 0..=random.below(most) {
        change(&mut heap, &layout, random);
    }
    heap
}

/// Numbers of one word and of two that steps reckon with.
const SHORT: &[usize] = &[
    header::TOTAL,
    header::PEAK,
    header::ESTIMATE,
    header::PAUSE,
    header::STEPMUL,
    header::INTERRUPTED,
    header::CURSOR,
    header::CURSOR + 1,
];
const LONG: &[usize] = &[
    header::LIMIT,
    header::CREATION,
    header::THRESHOLD,
    header::DEBT,
    header::REMAINING,
];

/// A number of the header that steps reckon with: near an end, or where a rule turns (an estimate of 100,
/// a debt of 1,024, which is stored plus 2^63).
pub(crate) fn change_number(words: &mut [u32], random: &mut Random) {
    let near = random.below(300);
    let turn = random.below(3);
    if random.percent(50) {
        let place = random.pick(SHORT).unwrap_or(0);
        let most = (1 << 31) - 1;
        let ends = [
            near,
            most - near,
            u32::MAX - near,
            random.below(6),
            99 + turn,
        ];
        words[place] = random.pick(&ends).unwrap_or(0);
    } else {
        let place = random.pick(LONG).unwrap_or(0);
        let (half, near, turn) = (1 << 63, u64::from(near), u64::from(turn));
        let ends = [near, half - near, half + 4 * near, u64::MAX - near];
        let turns = [99 + turn, half + 1023 + turn, u64::MAX];
        let number = random.pick(&[&ends[..], &turns].concat()).unwrap_or(0);
        words[place] = number as u32;
        words[place + 1] = (number >> 32) as u32;
    }
}

/// A value or a key of a table copied to another place of the table: so a key stands there twice.
fn copy_value(words: &mut [u32], layout: &Layout, random: &mut Random) {
    let a = layout.arenas[Kind::Tables as usize];
    let slot = random.below(a.slots as u32) as usize;
    let body = &mut words[a.bodies + slot * a.stride..][..a.stride];
    let extent = body[2].min(64) + 2 * body[3].min(64);
    let [from, to] = [0; 2].map(|_| 4 + 3 * random.below(extent) as usize);
    body.copy_within(from..from + 3, to);
}

/// One change: a number of the header, a list's count, a value, a byte, or a word at some place.
fn change(heap: &mut Words, layout: &Layout, random: &mut Random) {
    match random.below(16) {
        0 => {
            let list = layout.lists[random.below(4) as usize];
            let room = list.room as u32;
            let counts = [
                0,
                1,
                room,
                room.saturating_sub(1),
                room + 1,
                random.below(room + 1),
            ];
            heap.words[list.count] = random.pick(&counts).unwrap_or(0);
        }
        1 if layout.bytes > 0 => {
            let place = random.below(layout.bytes as u32) as usize;
            heap.bytes[place] = random.pick(b"kv_\0").unwrap_or(0);
        }
        2 | 3 => change_number(&mut heap.words, random),
        4 | 5 => copy_value(&mut heap.words, layout, random),
        _ => {
            let place = place(&heap.words, layout, random).min(layout.words - 1);
            heap.words[place] = word(&heap.words, place, random);
        }
    }
}

/// A place by chance.
fn place(words: &[u32], layout: &Layout, random: &mut Random) -> usize {
    let a = layout.arenas[random.below(6) as usize];
    let list = layout.lists[random.below(4) as usize];
    let slot = random.below(a.slots.max(1) as u32) as usize;
    let mut at = |bound: usize| random.below(bound.max(1) as u32) as usize;
    match at(12) {
        0 => header::DAMAGE + 1 + at(header::WORDS - header::DAMAGE - 1),
        1 => header::PROTOTYPES + at(header::DAMAGE - header::PROTOTYPES),
        2 => list.base + at(ITEM * (words[list.count] as usize).min(list.room)),
        3 => list.base + at(ITEM * list.room),
        4 => a.top + at(3),
        5 => a.base + slot,
        6 => a.base + at(4 * a.slots),
        7 | 8 => a.bodies + slot * a.stride + at(a.stride.min(16)),
        9 => in_record(words, a, slot, &mut at),
        10 => layout.protos + at(PROTO + layout.arenas[0].bodies - layout.protos),
        _ => at(layout.words),
    }
}

/// A word of a record as it is sized.
fn in_record(words: &[u32], a: Arena, slot: usize, at: &mut impl FnMut(usize) -> usize) -> usize {
    let extent = words.get(a.base + 3 * a.slots + slot).copied().unwrap_or(0);
    a.bodies + slot * a.stride + at((extent as usize).min(a.stride))
}

/// What becomes of the word there.
fn word(words: &[u32], place: usize, random: &mut Random) -> u32 {
    let old = words[place];
    match random.below(8) {
        0 => random.below(10),
        1 => old.wrapping_add(1),
        2 => old.wrapping_sub(1),
        3 => words[random.below(words.len() as u32) as usize],
        4 => old ^ 1 << random.below(32),
        5 => random.pick(EDGES).unwrap_or(0),
        6 => random.below(3),
        _ => random.bits() as u32,
    }
}
