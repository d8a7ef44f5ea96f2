//! Choices of sizes, by chance, within their ranges and outside.

use oracle::random::Random;

/// The least and the most of each size.
pub const RANGES: [(u32, u32); 10] = [
    (2, 4096),
    (2, 4096),
    (0, 4096),
    (0, 4096),
    (0, 4096),
    (0, 4096),
    (0, 256),
    (0, 256),
    (0, 64),
    (1, 32),
];

/// The sizes of the smallest heap.
pub const SMALLEST: [u32; 10] = [2, 2, 0, 0, 0, 0, 0, 0, 0, 1];

/// A size within its range: mostly a small one, else either end or any.
fn size(random: &mut Random, (least, most): (u32, u32)) -> u32 {
    match random.below(10) {
        0 => least,
        1 => most,
        2 => least + random.below(most - least + 1),
        _ => least + random.below((most - least + 1).min(24)),
    }
}

/// Ten sizes within their ranges.
pub fn within(random: &mut Random) -> [u32; 10] {
    RANGES.map(|range| size(random, range))
}

/// A size outside its range: next to an end or anywhere.
fn outside_one(random: &mut Random, (least, most): (u32, u32)) -> u32 {
    match random.below(4) {
        0 if least > 0 => random.below(least),
        0 | 1 => most + 1,
        2 => u32::MAX - random.below(3),
        _ => most + 1 + random.below(u32::MAX - most),
    }
}

/// Ten sizes of which at least one lies outside its range, the others within.
pub fn outside(random: &mut Random) -> [u32; 10] {
    let mut sizes = within(random);
    for _ in 0..=random.below(3) {
        let place = random.below(10) as usize;
        sizes[place] = outside_one(random, RANGES[place]);
    }
    sizes
}
