//! The source's arena by itself, for whoever judges one arena and no heap.
//!
//! Colours are numbers here, as in document 01: 0 free, 1 and 2 the whites, 3 gray, 4 black.

use crate::vm::gc::Color;
use crate::vm::gc::arena::{Arena, GcRef};

/// The source's `Arena<T>` over numbers.
pub struct Slots {
    arena: Arena<u32>,
}

fn colour(number: u32) -> Color {
    match number {
        1 => Color::White0,
        2 => Color::White1,
        3 => Color::Gray,
        4 => Color::Black,
        other => panic!("{other} is no colour"),
    }
}

impl Default for Slots {
    fn default() -> Self {
        Self::new()
    }
}

impl Slots {
    pub fn new() -> Self {
        Self {
            arena: Arena::new(),
        }
    }

    /// Index and generation of the slot that now holds `value`.
    pub fn take(&mut self, value: u32, number: u32) -> (u32, u32) {
        let named = self.arena.alloc(value, colour(number));
        (named.index(), named.generation())
    }

    /// Whether the handle names an occupied slot.
    pub fn names(&self, index: u32, generation: u32) -> bool {
        self.arena.is_valid(GcRef::named(index, generation))
    }

    pub fn free(&mut self, index: u32, generation: u32) -> bool {
        self.arena.free(GcRef::named(index, generation)).is_some()
    }

    pub fn paint(&mut self, index: u32, generation: u32, number: u32) -> bool {
        self.arena
            .set_color(GcRef::named(index, generation), colour(number))
    }

    /// How many were freed, the next position, whether the sweep is done.
    #[inline]
    pub fn sweep(&mut self, dead: u32, white: u32, start: u32, most: u32) -> (u32, u32, bool) {
        self.arena
            .sweep_partial(colour(dead), colour(white), start, most)
    }

    /// How many slots are occupied.
    pub fn count(&self) -> u32 {
        self.arena.len()
    }

    /// The fresh index: how many slots there are, occupied or free.
    pub fn fresh(&self) -> u32 {
        self.arena.capacity()
    }

    /// Generation, colour and value of slot `i`, which lies below the fresh index.
    pub fn slot(&self, i: usize) -> (u32, u32, Option<u32>) {
        let (generation, byte, value) = self.arena.slot(i).expect("a slot below the fresh index");
        (generation, u32::from(byte), value.copied())
    }

    /// The free chain from its head.
    pub fn chain(&self) -> impl Iterator<Item = u32> {
        self.arena.chain().into_iter()
    }
}
