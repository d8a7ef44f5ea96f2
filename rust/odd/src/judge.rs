//! One call given to ours and to the second reading: answer, words, bytes and time are held to each
//! other.

use crate::bound::{Nearest, bound};
use crate::draw::drawn;
use crate::finding::{Case, Finding, Told};
use crate::rows::{Given, Row, rows, steps};
use crate::tally::{Kind, Tally};
use heap::Words;
use heap::layout::header;
use heap::words::empty;
use oracle::random::Random;
use reading::Buffers;
use std::time::{Duration, Instant};

/// What is lent for an answer: a word that hardly any answer has.
const LENT: u32 = 0xa5a5_a5a5;

/// A call that came near its bound is measured again so often: the scheduler may have been in the way.
const AGAIN: usize = 9;

/// Gives a call to ours, which changes the heap, and says how long it took.
pub(crate) fn ours(row: &Row, heap: &mut Words, given: &Given) -> (Told, Duration) {
    let mut out = vec![LENT; given.lent];
    let start = Instant::now();
    let code = (row.ours)(heap, given, &mut out);
    let took = start.elapsed();
    (Told { code, out }, took)
}

/// Gives a call to the second reading, which changes the heap.
pub(crate) fn second(row: &Row, heap: &mut Words, given: &Given) -> Told {
    let mut out = vec![LENT; given.lent];
    let mut buffers = Buffers {
        words: &mut heap.words,
        bytes: &mut heap.bytes,
    };
    let code = (row.second)(&mut buffers, given, &mut out);
    Told { code, out }
}

/// Compares calls and counts them.
pub struct Judge {
    /// Whether times are held to the bound: not where the program runs in another one.
    timed: bool,
    pub tally: Tally,
    pub nearest: Nearest,
    /// Calls that took longer than their bound at first and not when measured again.
    pub disturbed: u64,
    /// The buffers before the call, and those of the second reading: kept, since a large heap is costly
    /// to allocate.
    before: Words,
    other: Words,
}

/// Nothing, or the first finding.
pub type Found = Result<(), Box<Finding>>;

/// Copies without a new buffer.
fn copy(from: &Words, to: &mut Words) {
    to.words.clone_from(&from.words);
    to.bytes.clone_from(&from.bytes);
}

/// A damage mark would have every later call refused: it is taken away, at times.
fn unmark(heap: &mut Words, random: &mut Random) {
    if let Some(mark) = heap.words.get_mut(header::DAMAGE)
        && random.percent(50)
    {
        *mark = 0;
    }
}

impl Judge {
    #[must_use]
    pub fn new(timed: bool) -> Self {
        Self {
            timed,
            tally: Tally::default(),
            nearest: Nearest::default(),
            disturbed: 0,
            before: empty(),
            other: empty(),
        }
    }

    /// Compares one call; `heap` is then as both left it.
    ///
    /// # Errors
    /// A difference, or a call over its bound.
    pub fn give(&mut self, kind: Kind, row: &'static Row, given: Given, heap: &mut Words) -> Found {
        copy(heap, &mut self.before);
        copy(heap, &mut self.other);
        let (told, took) = ours(row, heap, &given);
        let theirs = second(row, &mut self.other, &given);
        let same = told == theirs && *heap == self.other;
        if same {
            self.tally.add(kind, row, &told);
        }
        let slow = self.time(row, &given, took);
        let case = || Case {
            row,
            given,
            before: self.before.clone(),
        };
        match slow {
            _ if !same => Err(Box::new(Finding::Differs(case()))),
            Some(nearest) => Err(Box::new(Finding::Slow(case(), nearest))),
            None => Ok(()),
        }
    }

    /// Holds a time to the bound, measuring again what comes near it. Something if it is over.
    fn time(&mut self, row: &'static Row, given: &Given, mut took: Duration) -> Option<Nearest> {
        if !self.timed {
            return None;
        }
        let most = bound(&self.before);
        if took > most / 16 {
            let over = took > most;
            for _ in 0..AGAIN {
                took = took.min(ours(row, &mut self.before.clone(), given).1);
            }
            self.disturbed += u64::from(over && took <= most);
        }
        let nearest = Nearest {
            name: row.name,
            words: self.before.words.len(),
            took,
            bound: most,
        };
        self.nearest.seen(nearest);
        (took > most).then_some(nearest)
    }

    /// Every call once, each on the buffers as they are.
    ///
    /// # Errors
    /// The first finding.
    pub fn every(&mut self, kind: Kind, heap: &Words, random: &mut Random) -> Found {
        let mut now = heap.clone();
        for row in rows() {
            let given = drawn(random, heap, row);
            self.give(kind, row, given, &mut now)?;
            copy(heap, &mut now);
        }
        Ok(())
    }

    /// So many calls one after the other, half of them steps.
    ///
    /// # Errors
    /// The first finding.
    pub fn in_turn(&mut self, kind: Kind, heap: &Words, count: u32, random: &mut Random) -> Found {
        let mut now = heap.clone();
        let all: Vec<&'static Row> = rows().filter(|row| row.name != "make_heap").collect();
        let steps: Vec<&'static Row> = steps().iter().collect();
        for _ in 0..count {
            let from = if random.percent(50) { &steps } else { &all };
            let row = from[random.below(from.len() as u32) as usize];
            unmark(&mut now, random);
            let given = drawn(random, &now, row);
            self.give(kind, row, given, &mut now)?;
        }
        Ok(())
    }
}
