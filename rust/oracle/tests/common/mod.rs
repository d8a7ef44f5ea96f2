//! What the tests share.

#![allow(dead_code)]

use oracle::{Answer, Command, Driver, Oracle, Sizes, Snapshot};
use std::cell::RefCell;
use std::rc::Rc;

/// The answers of a script, as lines.
pub fn lines(script: &str) -> Vec<String> {
    let text = oracle::script::answers(script).expect("memory has no trouble");
    text.lines().map(str::to_owned).collect()
}

/// A heap of the default sizes.
pub fn heap() -> Oracle {
    Oracle::new(Sizes::default()).expect("the default sizes lie in their ranges")
}

/// Gives commands from a list and keeps answers, each with the heap as it then is.
pub struct Replay {
    commands: std::vec::IntoIter<Command>,
    /// So many first answers are not kept.
    skip: usize,
    seen: Vec<(Answer, Snapshot)>,
}

impl Driver for Replay {
    fn next(&mut self, _: &Oracle) -> Option<Command> {
        self.commands.next()
    }

    fn answer(&mut self, heap: &Oracle, answer: &Answer) {
        match self.skip.checked_sub(1) {
            Some(left) => self.skip = left,
            None => self.seen.push((answer.clone(), heap.snapshot())),
        }
    }
}

/// Runs commands on a new heap.
pub fn replay(sizes: Sizes, commands: Vec<Command>) -> Vec<(Answer, Snapshot)> {
    replay_from(0, sizes, commands)
}

/// Runs commands on a new heap and keeps the answers from one place on.
pub fn replay_from(skip: usize, sizes: Sizes, commands: Vec<Command>) -> Vec<(Answer, Snapshot)> {
    let driver = Rc::new(RefCell::new(Replay {
        commands: commands.into_iter(),
        skip,
        seen: Vec::new(),
    }));
    let shared: Rc<RefCell<dyn Driver>> = driver.clone();
    let mut heap = Oracle::with_driver(sizes, shared).expect("sizes in range");
    heap.run();
    drop(heap);
    let driver = Rc::into_inner(driver).expect("the heap is gone");
    driver.into_inner().seen
}
