//! The steps of the engine behind the trait.

use crate::engine::Engine;
use collector::engine;

/// The engine of the static libraries; its heap is in the lent buffers alone.
pub struct Ours;

impl Engine for Ours {
    fn gc_singlestep(&mut self, w: &mut [u32], b: &mut [u8], out: &mut [u32]) -> u32 {
        engine::gc_singlestep(w, b, out)
    }

    fn gc_step(&mut self, w: &mut [u32], b: &mut [u8], budget: i64, out: &mut [u32]) -> u32 {
        engine::gc_step(w, b, budget, out)
    }

    fn gc_step_auto(&mut self, w: &mut [u32], b: &mut [u8], out: &mut [u32]) -> u32 {
        engine::gc_step_auto(w, b, out)
    }

    fn gc_check(&mut self, w: &mut [u32], b: &mut [u8], out: &mut [u32]) -> u32 {
        engine::gc_check(w, b, out)
    }

    fn full_gc(&mut self, w: &mut [u32], b: &mut [u8], out: &mut [u32]) -> u32 {
        engine::full_gc(w, b, out)
    }

    fn finish(&mut self, w: &mut [u32], b: &mut [u8], ok: u32, out: &mut [u32]) -> u32 {
        engine::finish(w, b, ok, out)
    }
}
