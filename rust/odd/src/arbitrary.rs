//! Arbitrary words and bytes: of any length, or with a header that test 1 accepts and anything past it.

use crate::damage::change_number;
use crate::fill::{fill, upto};
use calls::bend::EDGES;
use heap::Words;
use heap::layout::{Layout, header};
use oracle::Sizes;
use oracle::random::Random;

/// Words of arbitrary buffers, at most.
const LONGEST: u32 = 3000;

/// The bytes that a weak mode and the names are made of, and zeros.
const LETTERS: &[u8] = b"kv__gcmode\0\0";

/// Anything: all bits, or mostly small numbers.
#[must_use]
pub fn arbitrary(random: &mut Random) -> Words {
    let small = random.percent(50);
    let (words, bytes) = (random.below(LONGEST), random.below(300));
    let word = |random: &mut Random| {
        if small {
            number(random)
        } else {
            random.bits() as u32
        }
    };
    Words {
        words: (0..words).map(|_| word(random)).collect(),
        bytes: (0..bytes).map(|_| random.bits() as u8).collect(),
    }
}

/// Mostly a number that may be a tag, an index, a generation, a count or a colour.
fn number(random: &mut Random) -> u32 {
    match random.below(20) {
        0..6 => 0,
        6..11 => 1,
        11..18 => random.below(10),
        18 if random.percent(50) => random.bits() as u32,
        _ => random.pick(EDGES).unwrap_or(0),
    }
}

/// Sizes of a few slots each; at times one arena is longer than a sweep step.
fn sizes(random: &mut Random) -> [u32; 10] {
    let [two, four] = [3, 5].map(|bound| [0; 6].map(|_| random.below(bound)));
    let mut sizes = [
        2 + four[0],
        2 + two[0],
        four[5],
        four[1],
        four[2],
        two[2],
        four[4],
        four[3],
        two[4],
        1 + two[5],
    ];
    if random.below(16) == 0 {
        sizes[random.below(6) as usize] += 76 + random.below(90);
    }
    sizes
}

/// Arbitrary words past ten sizes, in a header that test 1 accepts.
#[must_use]
pub fn accepted(random: &mut Random) -> Words {
    let sizes = sizes(random);
    let layout = Layout::new(Sizes::from(sizes));
    let mut words: Vec<u32> = (0..layout.words + 2).map(|_| number(random)).collect();
    words[..10].copy_from_slice(&sizes);
    for (place, size) in [
        (header::PROTOTYPES, 6),
        (header::TOP, 7),
        (header::OPENS, 8),
    ] {
        words[place] = upto(sizes[size] as usize, random);
    }
    words[header::CI] = upto(sizes[9] as usize - 1, random);
    words[header::DAMAGE] = u32::from(random.below(40) == 0);
    words[header::PHASE] = random.pick(&[0, 1, 1, 1, 2, 3, 4]).unwrap_or(0);
    words[header::WHITE] = 1 + random.below(2);
    words[header::TOTAL] = total(random);
    words[header::INTERRUPTED] = random.below(7) * u32::from(random.percent(25));
    fill(&mut words, &layout, random);
    for _ in 0..random.below(4) {
        change_number(&mut words, random);
    }
    if random.below(4) == 0 {
        to_an_end(&mut words, &layout, random);
    }
    let letter = |random: &mut Random| random.pick(LETTERS).unwrap_or(0);
    Words {
        words,
        bytes: (0..layout.bytes + 2).map(|_| letter(random)).collect(),
    }
}

/// One word that test 1 looks at is the most that it may be, or one more.
fn to_an_end(words: &mut [u32], layout: &Layout, random: &mut Random) {
    let state = [
        (header::PROTOTYPES, words[6]),
        (header::TOP, words[7]),
        (header::OPENS, words[8]),
        (header::CI, words[9] - 1),
        (header::PHASE, 4),
        (header::WHITE, 2),
        (header::TOTAL, (1 << 31) - 1),
    ];
    let lists = layout.lists.map(|list| (list.count, list.room as u32));
    let fresh = layout.arenas.map(|a| (a.top + 1, a.slots as u32));
    let counts = layout.arenas.map(|a| (a.top + 2, words[a.top + 1]));
    let all = [&state[..], &lists, &fresh, &counts].concat();
    let (place, most) = random.pick(&all).expect("some words");
    words[place] = most + random.below(2);
}

/// A total: any, or so large that little may still be made.
fn total(random: &mut Random) -> u32 {
    let most = (1 << 31) - 1;
    match random.below(6) {
        0 => most - random.below(300),
        1 => random.bits() as u32 & most,
        _ => random.below(5000),
    }
}
