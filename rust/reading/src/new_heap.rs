//! What a heap needs, and a new one.

use crate::buffers::{Buffers, Heap, Told, code, unless};
use crate::test1::sizes_fit;
use heap::layout::{Layout, STRING, header};
use oracle::Sizes;
use proved::Refused;

/// The strings and tables of a new heap.
const NAMES: [&[u8]; 2] = [b"__mode", b"__gc"];
const TABLES: usize = 2;
/// Array places and nodes of both tables.
const PLACES: u32 = 8;
/// Header and values of such a table.
const TABLE_EXTENT: u32 = 4 + 3 * PLACES + 6 * PLACES;
/// Two strings and two tables.
const NEW_TOTAL: u32 = 2 * 48 + 2 * 64;

/// Ten sizes within their ranges, else 4.
fn layout_of(sizes: &[u32]) -> Told<Layout> {
    let sizes: [u32; 10] = sizes.try_into().map_err(|_| Refused(4))?;
    unless(sizes_fit(sizes), 4)?;
    Ok(Layout::new(Sizes::from(sizes)))
}

/// The words and bytes of a heap of these sizes: 4, then 1 where the lent words are too few.
pub fn needed(sizes: &[u32], out: &mut [u32]) -> u32 {
    code(layout_of(sizes).and_then(|layout| {
        unless(out.len() >= 2, 1)?;
        out[..2].copy_from_slice(&[layout.words as u32, layout.bytes as u32]);
        Ok(())
    }))
}

impl Buffers<'_> {
    /// The sizes are tested (4), then the lengths (1), nothing else. What lies past the heap stays.
    pub fn make_heap(&mut self, sizes: &[u32]) -> u32 {
        code(layout_of(sizes).and_then(|layout| {
            let long = layout.words <= self.words.len() && layout.bytes <= self.bytes.len();
            unless(long, 1)?;
            self.words[..layout.words].fill(0);
            self.bytes[..layout.bytes].fill(0);
            self.words[..10].copy_from_slice(sizes);
            let mut heap = Heap {
                words: self.words,
                bytes: self.bytes,
                layout,
            };
            heap.write_new_state();
            heap.write_new_objects();
            Ok(())
        }))
    }
}

impl Heap<'_> {
    /// At Pause with pause 200, stepmul 200, threshold 65,536, total and peak 224, no limit, no debt.
    fn write_new_state(&mut self) {
        self.words[header::PAUSE] = 200;
        self.words[header::STEPMUL] = 200;
        self.words[header::WHITE] = 1;
        self.words[header::TOTAL] = NEW_TOTAL;
        self.words[header::PEAK] = NEW_TOTAL;
        self.set_long(header::LIMIT, u64::MAX);
        self.set_long(header::THRESHOLD, 65_536);
        self.clear_debt();
    }

    /// Strings and tables in slots 0 and 1, in the current white, and the roots that name them.
    fn write_new_objects(&mut self) {
        let [strings, tables, ..] = self.layout.arenas;
        for (slot, name) in NAMES.iter().enumerate() {
            self.occupy(strings, slot, 1);
            self.words[strings.bodies + slot] = name.len() as u32;
            self.bytes[slot * STRING..][..name.len()].copy_from_slice(name);
            self.set_optional(header::NAME_MODE + 2 * slot, Some((slot as u32, 0)));
        }
        for slot in 0..TABLES {
            self.occupy(tables, slot, TABLE_EXTENT);
            let body = tables.bodies + slot * tables.stride;
            self.words[body + 2] = PLACES;
            self.words[body + 3] = PLACES;
            self.set_optional(header::GLOBAL + 2 * slot, Some((slot as u32, 0)));
        }
    }

    fn occupy(&mut self, a: heap::layout::Arena, slot: usize, extent: u32) {
        self.words[a.base + slot] = 1;
        self.words[a.base + 3 * a.slots + slot] = extent;
        self.words[a.top + 1] += 1;
        self.words[a.top + 2] += 1;
    }
}
