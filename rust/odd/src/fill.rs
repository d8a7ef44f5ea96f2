//! Words of an arbitrary heap made likely to mean something: counts within their ranges, generations of
//! two kinds, names as keys, prototypes that nest others.

use heap::ask::Kind;
use heap::layout::{Arena, Layout, PROTO, header};
use oracle::random::Random;

/// The counts of a thread (size, top, open and suspended upvalues), a little past their ranges.
const THREAD_COUNTS: [(usize, usize); 4] = [(8, 9), (9, 9), (10, 16), (11, 17)];

/// Free, the whites, gray, black, and one that is none.
const COLOURS: &[u32] = &[0, 1, 1, 2, 2, 3, 4, 4, 9];

/// The arena of each tag from that of strings on.
const OF_TAG: [Kind; 5] = [
    Kind::Strings,
    Kind::Tables,
    Kind::Functions,
    Kind::Userdata,
    Kind::Threads,
];

/// Where the records of a kind have tables' handles that may be missing.
const OPTIONAL: [(Kind, &[usize]); 4] = [
    (Kind::Tables, &[0]),
    (Kind::Functions, &[1]),
    (Kind::Userdata, &[0, 2]),
    (Kind::Threads, &[0]),
];

/// Fills counts always, records mostly; then most handles name what has their index.
pub(crate) fn fill(words: &mut [u32], layout: &Layout, random: &mut Random) {
    fill_counts(words, layout, random);
    fill_threads(words, layout.arenas[5], random);
    if random.percent(75) {
        fill_tables(words, layout, random);
        fill_closures(words, layout.arenas[2], random);
        fill_protos(words, layout, random);
        match_values(words, layout, random);
        match_tables(words, layout, random);
    }
}

/// The generation of a slot, if there is such a slot.
fn generation(words: &[u32], a: Arena, slot: u32) -> Option<u32> {
    ((slot as usize) < a.slots).then(|| words[a.base + a.slots + slot as usize])
}

/// Wherever a tag and an index stand, most generations behind them become the slot's: of list items too.
fn match_values(words: &mut [u32], layout: &Layout, random: &mut Random) {
    for place in layout.lists[0].base..layout.words - 2 {
        let kind = words[place]
            .checked_sub(4)
            .map(|tag| OF_TAG.get(tag as usize));
        if let Some(Some(kind)) = kind
            && let Some(found) = generation(words, layout.arenas[*kind as usize], words[place + 1])
            && random.percent(60)
        {
            words[place + 2] = found;
        }
    }
}

/// The same for handles of tables that may be missing: of records, and the roots of the header.
fn match_tables(words: &mut [u32], layout: &Layout, random: &mut Random) {
    let tables = layout.arenas[Kind::Tables as usize];
    let mut places: Vec<usize> = (header::METATABLES..header::LIMIT).step_by(2).collect();
    places.extend([header::GLOBAL, header::REGISTRY]);
    for (kind, fields) in OPTIONAL {
        let a = layout.arenas[kind as usize];
        let bodies = (0..a.slots).map(|slot| a.bodies + slot * a.stride);
        places.extend(bodies.flat_map(|body| fields.iter().map(move |field| body + field)));
    }
    for place in places {
        let slot = words[place].wrapping_sub(1);
        if let Some(found) = generation(words, tables, slot)
            && random.percent(80)
        {
            words[place + 1] = found;
        }
    }
}

/// A count: often the most that it may be.
pub(crate) fn upto(most: usize, random: &mut Random) -> u32 {
    match random.below(2) {
        0 => most as u32,
        _ => random.below(most as u32 + 1),
    }
}

/// Counts of lists and arenas within their ranges, colours, generations of two kinds.
fn fill_counts(words: &mut [u32], layout: &Layout, random: &mut Random) {
    for list in layout.lists {
        words[list.count] = upto(list.room, random);
    }
    for a in layout.arenas {
        words[a.top + 1] = upto(a.slots, random);
        words[a.top + 2] = upto(words[a.top + 1] as usize, random);
        for slot in 0..a.slots {
            words[a.base + slot] = random.pick(COLOURS).unwrap_or(0);
            words[a.base + a.slots + slot] = upto(1, random);
        }
    }
}

/// The counts of threads.
fn fill_threads(words: &mut [u32], threads: Arena, random: &mut Random) {
    for slot in 0..threads.slots {
        let body = threads.bodies + slot * threads.stride;
        for (place, most) in THREAD_COUNTS {
            words[body + place] = upto(most, random);
        }
    }
}

/// Strings are short; the two names are the first of them, and nodes of tables often have them as keys (modes and methods),
/// a zero of either sign, or nil beside an object.
fn fill_tables(words: &mut [u32], layout: &Layout, random: &mut Random) {
    let [strings, tables, ..] = layout.arenas;
    let names = [0, 1].map(|slot| [slot as u32, words[strings.base + strings.slots + slot]]);
    for (i, [slot, generation]) in names.into_iter().enumerate() {
        words[header::NAME_MODE + 2 * i..][..2].copy_from_slice(&[slot + 1, generation]);
    }
    words[strings.bodies..][..strings.slots].fill_with(|| random.below(5));
    for slot in 0..tables.slots {
        let body = &mut words[tables.bodies + slot * tables.stride..][..tables.stride];
        let array = upto(4, random);
        body[2] = array;
        body[3] = 1 << random.below(4);
        for node in body[4 + 3 * array as usize..].chunks_exact_mut(6).take(8) {
            match random.below(10) {
                0 => node[..3].copy_from_slice(&[3, 0, random.below(2) << 31]),
                1 => {
                    node[0] = 9 * random.below(2);
                    node[3] = 4 + random.below(5);
                }
                2..6 => {
                    let [slot, generation] = names[random.below(2) as usize];
                    node[..4].copy_from_slice(&[4, slot, generation, 4]);
                }
                _ => {}
            }
        }
    }
}

/// Closures of both kinds, of the first prototypes.
fn fill_closures(words: &mut [u32], closures: Arena, random: &mut Random) {
    for slot in 0..closures.slots {
        let body = closures.bodies + slot * closures.stride;
        words[body] = random.below(3);
        words[body + 3] = random.below(4);
        words[body + 4] = upto(3, random);
    }
}

/// Prototypes with constants that name something, nested numbers on both sides of their own.
fn fill_protos(words: &mut [u32], layout: &Layout, random: &mut Random) {
    for proto in words[layout.protos..layout.stack].chunks_exact_mut(PROTO) {
        proto[0] = upto(3, random);
        proto[1] = upto(2, random);
        proto[2] = random.below(2);
        for constant in proto[3..51].chunks_exact_mut(3) {
            constant[0] = random.below(9);
        }
        proto[51..].fill_with(|| random.below(4));
    }
}
