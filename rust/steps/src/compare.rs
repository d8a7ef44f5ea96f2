//! Each step of the oracle made by an engine too, on the same heap in words: the answer and both
//! buffers are compared word for word.
//!
//! The commands come from a driver, mostly the oracle's generator. Before a step the oracle's heap
//! is transcribed; the engine makes the step there; what it leaves is held to the transcription of
//! the oracle's heap after the step.
//!
//! While a finalizer is out the oracle does not show what it interrupted, nor the remaining budget.
//! Both words are taken from the engine when it hands the finalizer out, and carried into each
//! transcription until the finalizer is finished: so no other call may change them, and wrong ones
//! show when the step goes on.

use crate::engine::{Call, Engine, LENT, Told};
use crate::names;
use crate::tally::Tally;
use heap::Words;
use heap::layout::{Layout, header};
use heap::words::{Waiting, empty, transcribe};
use oracle::{Answer, Command, Driver, Oracle, Sizes, Step};
use std::cell::RefCell;
use std::fmt;
use std::rc::Rc;

/// What is no word and no byte.
pub const ANSWER: &str = "answer";

/// One thing that differs.
#[derive(Clone, Debug, PartialEq, Eq)]
pub struct Found {
    /// A word or byte by its name, or the answer.
    pub what: String,
    pub ours: String,
    pub source: String,
}

impl Found {
    #[must_use]
    pub fn new(what: impl Into<String>, ours: impl ToString, source: impl ToString) -> Self {
        Self {
            what: what.into(),
            ours: ours.to_string(),
            source: source.to_string(),
        }
    }
}

/// A step that the engine makes differently.
#[derive(Clone, Debug, PartialEq)]
pub struct Difference {
    /// The number of the command, from 1.
    pub number: usize,
    pub command: Command,
    /// The answer, the first word and the first byte, as far as they differ; at least one does.
    pub found: Vec<Found>,
    /// How many words and bytes differ in all.
    pub places: usize,
    /// The least sizes that have room for what the heap holds.
    pub used: Sizes,
}

impl Difference {
    /// The first thing found, without its numbers: shrinking keeps to it.
    #[must_use]
    pub fn kind(&self) -> String {
        let Found { what, ours, source } = &self.found[0];
        let text = match what.as_str() {
            ANSWER => format!("{what}: {ours}, {source}"),
            _ => what.clone(),
        };
        text.chars().filter(|c| !c.is_ascii_digit()).collect()
    }
}

impl fmt::Display for Difference {
    fn fmt(&self, f: &mut fmt::Formatter<'_>) -> fmt::Result {
        writeln!(f, "command {}: {}", self.number, self.command)?;
        for Found { what, ours, source } in &self.found {
            writeln!(f, "  {what}: ours {ours}, the source's {source}")?;
        }
        write!(f, "  words and bytes that differ: {}", self.places)
    }
}

/// What came of the commands on one heap.
pub struct Run {
    pub tally: Tally,
    /// The commands given, up to the difference if there is one.
    pub script: Vec<Command>,
    pub difference: Option<Difference>,
}

/// A driver between the oracle and whoever makes up the commands.
struct Compared {
    commands: Box<dyn Driver>,
    engine: Box<dyn Engine>,
    /// How many steps are still to be compared.
    left: u64,
    /// The step that is being made.
    step: Option<Call>,
    /// The heap before the step, and then as the engine leaves it; the oracle's after the step.
    ours: Words,
    source: Words,
    waiting: Waiting,
    run: Run,
}

impl Compared {
    /// Makes the step that the oracle has made, and compares.
    fn compare(&mut self, heap: &Oracle, answer: &Answer, call: Call) {
        let phase = self.ours.words[header::PHASE];
        let mut out = LENT;
        let code = call.make(self.engine.as_mut(), &mut self.ours, &mut out);
        let told = Told { code, out };
        let source_told = Told::of(answer, LENT);
        self.run.tally.add(phase, call, source_told);
        let handed = matches!(answer, Answer::Step(Step::Handed(..)));
        if handed {
            self.waiting = Waiting::of(&self.ours.words);
        } else if heap.out().is_none() {
            self.waiting = Waiting::default();
        }
        transcribe(&heap.snapshot(), self.waiting, &mut self.source);
        let mut found = Vec::new();
        if told != source_told {
            found.push(Found::new(ANSWER, told, source_told));
        }
        if handed && self.waiting.interrupted == 0 {
            let what = self.word(heap, header::INTERRUPTED);
            found.push(Found::new(what, 0, "not 0"));
        }
        if let Some(k) = first(&self.ours.words, &self.source.words) {
            let [ours, source] = [&self.ours, &self.source].map(|heap| heap.words[k]);
            found.push(Found::new(self.word(heap, k), ours, source));
        }
        if let Some(k) = first(&self.ours.bytes, &self.source.bytes) {
            let [ours, source] = [&self.ours, &self.source].map(|heap| heap.bytes[k]);
            let what = names::byte(&Layout::new(heap.sizes()), k);
            found.push(Found::new(what, ours, source));
        }
        if !found.is_empty() {
            self.run.difference = Some(self.difference(heap, call, found));
        }
    }

    /// The name of a word.
    fn word(&self, heap: &Oracle, place: usize) -> String {
        names::word(&Layout::new(heap.sizes()), &self.source.words, place)
    }

    fn difference(&self, heap: &Oracle, call: Call, found: Vec<Found>) -> Difference {
        let (ours, source) = (&self.ours, &self.source);
        Difference {
            number: self.run.script.len(),
            command: call.into(),
            found,
            places: differing(&ours.words, &source.words) + differing(&ours.bytes, &source.bytes),
            used: used(heap.sizes(), &source.words),
        }
    }
}

/// The first place at which two buffers of one length differ.
#[must_use]
pub fn first<T: PartialEq>(a: &[T], b: &[T]) -> Option<usize> {
    // One comparison of the whole is the fast way to "nowhere".
    if a == b {
        return None;
    }
    a.iter().zip(b).position(|(a, b)| a != b)
}

/// At how many places they differ.
#[must_use]
pub fn differing<T: PartialEq>(a: &[T], b: &[T]) -> usize {
    a.iter().zip(b).filter(|(a, b)| a != b).count()
}

/// These sizes with no more slots than each arena has used.
#[must_use]
pub fn used(sizes: Sizes, words: &[u32]) -> Sizes {
    let mut all = <[u32; 10]>::from(sizes);
    for (k, size) in all.iter_mut().take(6).enumerate() {
        *size = words[header::ARENAS + 3 * k + 1];
    }
    Sizes::from(all)
}

impl Driver for Compared {
    fn next(&mut self, heap: &Oracle) -> Option<Command> {
        if self.left == 0 || self.run.difference.is_some() {
            return None;
        }
        let command = self.commands.next(heap)?;
        self.run.script.push(command.clone());
        match Call::of(&command) {
            Some(call) => {
                self.left -= 1;
                self.step = Some(call);
                transcribe(&heap.snapshot(), self.waiting, &mut self.ours);
            }
            None => self.engine.follow(&command),
        }
        Some(command)
    }

    fn answer(&mut self, heap: &Oracle, answer: &Answer) {
        self.commands.answer(heap, answer);
        if let Some(call) = self.step.take() {
            self.compare(heap, answer, call);
        }
    }
}

/// Runs commands on a new heap, until they end, so many steps are compared or one differs.
///
/// # Panics
/// If the sizes are refused, or the source panics.
#[must_use]
pub fn run(sizes: Sizes, commands: Box<dyn Driver>, engine: Box<dyn Engine>, most: u64) -> Run {
    let compared = Rc::new(RefCell::new(Compared {
        commands,
        engine,
        left: most,
        step: None,
        ours: empty(),
        source: empty(),
        waiting: Waiting::default(),
        run: Run {
            tally: Tally::default(),
            script: Vec::new(),
            difference: None,
        },
    }));
    let driver: Rc<RefCell<dyn Driver>> = compared.clone();
    let mut heap = Oracle::with_driver(sizes, driver).expect("sizes in range");
    heap.run();
    drop(heap);
    let compared = Rc::into_inner(compared).expect("the heap is gone");
    compared.into_inner().run
}
