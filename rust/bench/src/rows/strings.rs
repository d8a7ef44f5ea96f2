//! Making strings: both sides look through all strings that are there, since hashing is left out.

use crate::run::{Run, both};
use crate::side::{Side, global};
use oracle::Value;
use std::hint::black_box;
use timing::timed;

/// Strings that are made new before those are collected again, and how often.
const NEW: u32 = 8;
const BATCHES: u32 = 20;

fn text<S: Side>(number: u32) -> S::Text {
    S::text(&u64::from(number).to_be_bytes())
}

/// A heap that holds so many strings, and has room for a few more.
fn with_strings<S: Side>(strings: u32) -> S {
    let tables = 2 + strings.div_ceil(64);
    let mut side = S::new([strings + NEW, tables, 0, 0, 0, 0, 0, 64, 0, 1]);
    let mut held = global();
    for i in 0..strings - 2 {
        if i % 64 == 0 {
            held = side.make_table(64, 0);
            side.push(Value::Table(held));
        }
        let made = side.make_string(text::<S>(i));
        side.table_set(held, i % 64, Value::Str(made));
    }
    side
}

/// Strings made in batches; the texts are ready before.
fn strings<S: Side>(side: &mut S, before: impl Fn(&mut S), text: impl Fn(u32) -> S::Text) -> f64 {
    let mut sum = 0.0;
    for _ in 0..BATCHES {
        before(side);
        let mut texts: Vec<_> = (0..NEW).map(&text).collect();
        sum += timed(1, || {
            for text in texts.drain(..) {
                black_box(side.make_string(text));
            }
        });
    }
    sum / f64::from(NEW * BATCHES)
}

/// The last of so many strings is found.
fn found<S: Side>(side: &mut S, present: u32) -> f64 {
    strings(side, |_| {}, |_| text::<S>(present - 3))
}

/// Strings that are not there are made.
fn new<S: Side>(side: &mut S) -> f64 {
    strings(side, S::full, |i| text::<S>(1_000_000 + i))
}

pub fn rows(run: &Run) {
    for (strings, number) in [(16, "16"), (256, "256"), (4096, "4,096")] {
        // The arena has 4,096 slots at most: the few more are then among them.
        let present = strings.min(4096 - NEW);
        let (name, what) = (
            format!("found, {number} present"),
            "the last of them is asked for",
        );
        both!(run, &name, what, S => with_strings::<S>(present), |side| found(side, present));
        let (name, what) = (
            format!("new, {number} present"),
            "one that is not there is made",
        );
        both!(run, &name, what, S => with_strings::<S>(present), new);
    }
}
