//! Slots: what a handle names, taking and freeing a slot, and the sweep of one arena.

use crate::buffers::{Heap, Told};
use crate::value::Handle;
use heap::ask::Kind;
use heap::layout::{Arena, STRING, header};
use proved::Refused;

/// The six arenas, in their order.
pub(crate) const KINDS: [Kind; 6] = [
    Kind::Strings,
    Kind::Tables,
    Kind::Functions,
    Kind::Upvalues,
    Kind::Userdata,
    Kind::Threads,
];

pub(crate) const FREE: u32 = 0;
pub(crate) const GRAY: u32 = 3;
pub(crate) const BLACK: u32 = 4;

/// Occupied slots that one sweep step sees.
const MAX_COUNT: u32 = 80;

/// What a sweep of some slots did, where the next one starts, and whether it came to the end.
pub(crate) struct Swept {
    pub freed: u32,
    pub next: u32,
    pub done: bool,
}

impl Heap<'_> {
    pub fn arena(&self, kind: Kind) -> Arena {
        self.layout.arenas[kind as usize]
    }

    /// The fresh index: no index from there on names a slot.
    pub fn fresh(&self, kind: Kind) -> u32 {
        self.words[self.arena(kind).top + 1]
    }

    /// An unknown colour is free.
    pub fn colour(&self, kind: Kind, slot: usize) -> u32 {
        match self.words[self.arena(kind).base + slot] {
            known @ 1..=BLACK => known,
            _ => FREE,
        }
    }

    pub fn paint(&mut self, kind: Kind, slot: usize, colour: u32) {
        let place = self.arena(kind).base + slot;
        self.words[place] = colour;
    }

    pub fn generation(&self, kind: Kind, slot: usize) -> u32 {
        let a = self.arena(kind);
        self.words[a.base + a.slots + slot]
    }

    pub fn link(&self, kind: Kind, slot: usize) -> u32 {
        let a = self.arena(kind);
        self.words[a.base + 2 * a.slots + slot]
    }

    pub fn body(&self, kind: Kind, slot: usize) -> usize {
        let a = self.arena(kind);
        a.bodies + slot * a.stride
    }

    /// The occupied slot of its generation that a handle names.
    pub fn named(&self, kind: Kind, (index, generation): Handle) -> Option<usize> {
        let slot = index as usize;
        let is_named = index < self.fresh(kind)
            && self.generation(kind, slot) == generation
            && self.colour(kind, slot) != FREE;
        is_named.then_some(slot)
    }

    /// The body of what a handle names.
    pub fn named_body(&self, kind: Kind, handle: Handle) -> Option<usize> {
        self.named(kind, handle).map(|slot| self.body(kind, slot))
    }

    /// The colour of what a handle names, free where it names nothing.
    pub fn shade(&self, kind: Kind, handle: Handle) -> u32 {
        self.named(kind, handle)
            .map_or(FREE, |slot| self.colour(kind, slot))
    }

    pub fn white(&self) -> u32 {
        self.words[header::WHITE]
    }

    pub fn other_white(&self) -> u32 {
        3 - self.white()
    }

    /// A slot in the current white whose record of so many words is zeros: the head of the chain, else
    /// the next fresh index at generation 0. One that names no free slot makes nothing: that is 3 where
    /// every slot is occupied, else damage.
    pub fn take(&mut self, kind: Kind, extent: usize) -> Told<(usize, Handle)> {
        let a = self.arena(kind);
        let fresh = self.fresh(kind) as usize;
        let head = self.words[a.top] as usize;
        let (slot, end) = if head > 0 {
            (head - 1, fresh)
        } else {
            (fresh, a.slots)
        };
        if slot >= end || self.colour(kind, slot) != FREE {
            return Err(self.no_slot(kind));
        }
        let [generation, link, size] = [1, 2, 3].map(|part| a.base + part * a.slots + slot);
        if head > 0 {
            self.words[a.top] = self.words[link];
            self.words[link] = 0;
        } else {
            self.words[a.top + 1] = fresh as u32 + 1;
            self.words[generation] = 0;
        }
        self.paint(kind, slot, self.white());
        self.words[size] = extent as u32;
        self.words[a.top + 2] += 1;
        self.zero(self.body(kind, slot), extent);
        Ok((slot, (slot as u32, self.words[generation])))
    }

    fn no_slot(&mut self, kind: Kind) -> Refused {
        let slots = self.arena(kind).slots;
        let full = self.fresh(kind) as usize == slots
            && (0..slots).all(|slot| self.colour(kind, slot) != FREE);
        if full {
            return Refused(3);
        }
        self.damage();
        Refused(8)
    }

    /// Zeroes the body as sized (an extent past the slot is 0) and a string's bytes, adds 1 to the
    /// generation modulo 2^32, and puts the slot at the head of the chain.
    fn free(&mut self, kind: Kind, slot: usize) {
        let a = self.arena(kind);
        let [generation, link, extent] = [1, 2, 3].map(|part| a.base + part * a.slots + slot);
        self.zero(self.body(kind, slot), self.count(extent, a.stride));
        if matches!(kind, Kind::Strings) {
            self.bytes[slot * STRING..][..STRING].fill(0);
        }
        self.words[extent] = 0;
        self.words[generation] = self.words[generation].wrapping_add(1);
        self.paint(kind, slot, FREE);
        self.words[link] = self.words[a.top];
        self.words[a.top] = slot as u32 + 1;
        self.words[a.top + 2] = self.words[a.top + 2].saturating_sub(1);
    }

    /// Slots upward from the start until 80 occupied ones were seen or the end, the fresh index. Those
    /// in the old white are freed, other occupied ones take the new one.
    pub fn sweep_partial(&mut self, kind: Kind, start: u32) -> Swept {
        let end = self.fresh(kind);
        let (mut freed, mut seen, mut next) = (0, 0, start);
        while next < end && seen < MAX_COUNT {
            let slot = next as usize;
            let colour = self.colour(kind, slot);
            if colour == self.other_white() {
                self.free(kind, slot);
                freed += 1;
            } else if colour != FREE {
                self.paint(kind, slot, self.white());
            }
            seen += u32::from(colour != FREE);
            next += 1;
        }
        Swept {
            freed,
            next,
            done: next >= end,
        }
    }
}
