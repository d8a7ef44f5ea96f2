//! Each command of a driven oracle given to ours too: the answer and both buffers are compared
//! word for word after every one.
//!
//! Our heap begins with `make_heap` and is changed by our calls alone. After a call the oracle's
//! heap is written out in words, and ours is held to it: every colour, generation, link and record,
//! the lists, the counters, the main record, the prototypes, the finalizer that is out; places that
//! hold nothing are 0 in both. What lies past the heap's end in our buffers must stay.
//!
//! While a finalizer is out the oracle does not show what it interrupted, nor the remaining budget.
//! Both words are taken from ours when it hands the finalizer out, and carried along until it is
//! finished: so no other call may change them, and wrong ones show when the step goes on.

use crate::collector::{Collector, ODD_BYTE, ODD_WORD};
use crate::give::give;
use crate::tally::Tally;
use heap::layout::{Layout, header};
use heap::words::{Waiting, empty, transcribe};
use heap::{Words, compared_reads};
use oracle::{Answer, Command, Driver, Oracle, Sizes, Snapshot, Step};
use std::cell::RefCell;
use std::rc::Rc;
use steps::compare::{ANSWER, Difference, Found, differing, first, used};
use steps::names;
use steps::shrink::listed;

/// What is no answer, but what the exported reads show.
const READS: &str = "reads";

/// What a test does to our heap after a command, to see that it is found.
pub type Spoil = fn(&mut Words, &Command);

/// How the commands are compared.
#[derive(Clone, Copy)]
pub struct How {
    /// After so many calls it is over.
    pub most: u64,
    /// Of so many calls the last one's buffers are compared; every one's answer is.
    pub every: u64,
    pub spoil: Option<Spoil>,
}

impl Default for How {
    /// Every word after every call.
    fn default() -> Self {
        Self {
            most: u64::MAX,
            every: 1,
            spoil: None,
        }
    }
}

/// What came of the commands on one heap.
pub struct Run {
    pub tally: Tally,
    /// The commands given, up to the difference if there is one.
    pub script: Vec<Command>,
    pub difference: Option<Difference>,
}

/// A driver between the oracle and whoever makes up the commands.
struct Compared {
    commands: Box<dyn Driver>,
    how: How,
    ours: Collector,
    /// The oracle's heap written out.
    source: Words,
    waiting: Waiting,
    run: Run,
}

/// The first word and the first byte that differ, by name.
fn buffers(sizes: Sizes, ours: &Words, source: &Words) -> Vec<Found> {
    let mut found = Vec::new();
    let (words, bytes) = (source.words.len(), source.bytes.len());
    let layout = || Layout::new(sizes);
    if let Some(k) = first(&ours.words[..words], &source.words) {
        let what = names::word(&layout(), &source.words, k);
        found.push(Found::new(what, ours.words[k], source.words[k]));
    }
    if let Some(k) = first(&ours.bytes[..bytes], &source.bytes) {
        let what = names::byte(&layout(), k);
        found.push(Found::new(what, ours.bytes[k], source.bytes[k]));
    }
    if let Some(word) = ours.words[words..].iter().find(|w| **w != ODD_WORD) {
        found.push(Found::new("a word past the heap", word, ODD_WORD));
    }
    if let Some(byte) = ours.bytes[bytes..].iter().find(|b| **b != ODD_BYTE) {
        found.push(Found::new("a byte past the heap", byte, ODD_BYTE));
    }
    found
}

impl Compared {
    /// What the oracle's heap looks like in words.
    fn write_out(&mut self, heap: &Oracle) -> Snapshot {
        let whole = heap.snapshot();
        transcribe(&whole, self.waiting, &mut self.source);
        whole
    }

    /// Takes over what the oracle does not show, when a finalizer is handed out.
    fn wait(&mut self, heap: &Oracle, answer: &Answer) {
        if matches!(answer, Answer::Step(Step::Handed(..))) {
            self.waiting = Waiting::of(&self.ours.heap.words);
        } else if heap.out().is_none() {
            self.waiting = Waiting::default();
        }
    }

    /// Gives ours the command that the oracle has answered, and compares.
    fn compare(&mut self, heap: &Oracle, answer: &Answer, command: &Command) {
        let phase = self.ours.heap.words[header::PHASE];
        self.run.tally.add(phase, command, answer);
        let given = give(&mut self.ours, command);
        if let Some(spoil) = self.how.spoil {
            spoil(&mut self.ours.heap, command);
        }
        self.wait(heap, answer);
        let mut found = Vec::new();
        if let Some(ours) = &given
            && ours != answer
        {
            found.push(Found::new(ANSWER, ours, answer));
        }
        let due = (self.run.script.len() as u64).is_multiple_of(self.how.every);
        if due || !found.is_empty() || given.is_none() {
            let whole = self.write_out(heap);
            if given.is_none() {
                let reads = compared_reads(&self.ours.heap, &whole, self.waiting);
                found.extend(reads.err().map(|why| Found::new(READS, why, "")));
            }
            found.extend(buffers(heap.sizes(), &self.ours.heap, &self.source));
        }
        if heap.out().is_some() && self.waiting.interrupted == 0 {
            found.push(Found::new("what a finalizer interrupted", 0, "not 0"));
        }
        if !found.is_empty() {
            self.run.difference = Some(self.difference(heap.sizes(), command, found));
        }
    }

    fn difference(&self, sizes: Sizes, command: &Command, found: Vec<Found>) -> Difference {
        let (ours, source) = (&self.ours.heap, &self.source);
        Difference {
            number: self.run.script.len(),
            command: command.clone(),
            found,
            places: differing(&ours.words, &source.words) + differing(&ours.bytes, &source.bytes),
            used: used(sizes, &source.words),
        }
    }
}

impl Driver for Compared {
    fn next(&mut self, heap: &Oracle) -> Option<Command> {
        if self.how.most == 0 || self.run.difference.is_some() {
            return None;
        }
        self.how.most -= 1;
        let command = self.commands.next(heap)?;
        self.run.script.push(command.clone());
        Some(command)
    }

    fn answer(&mut self, heap: &Oracle, answer: &Answer) {
        self.commands.answer(heap, answer);
        if let Some(command) = self.run.script.last().cloned() {
            self.compare(heap, answer, &command);
        }
    }
}

/// Gives commands to two new heaps, until they end, so many calls are compared or one differs.
///
/// # Panics
/// If the sizes are refused, the source panics, a new heap of ours differs, or a refused call of
/// ours writes to the words lent for its answer.
#[must_use]
pub fn run(sizes: Sizes, commands: Box<dyn Driver>, how: How) -> Run {
    let compared = Rc::new(RefCell::new(Compared {
        commands,
        how,
        ours: Collector::new(sizes).expect("sizes in range"),
        source: empty(),
        waiting: Waiting::default(),
        run: Run {
            tally: Tally::default(),
            script: Vec::new(),
            difference: None,
        },
    }));
    let driver: Rc<RefCell<dyn Driver>> = compared.clone();
    let mut heap = Oracle::with_driver(sizes, driver).expect("sizes in range");
    {
        let mut compared = compared.borrow_mut();
        compared.write_out(&heap);
        let new = buffers(sizes, &compared.ours.heap, &compared.source);
        assert_eq!(new, [], "the new heap");
    }
    heap.run();
    drop(heap);
    let compared = Rc::into_inner(compared).expect("the heap is gone");
    compared.into_inner().run
}

/// The same for a list of commands.
#[must_use]
pub fn replayed(sizes: Sizes, script: Vec<Command>, how: How) -> Run {
    run(sizes, listed(script), how)
}
