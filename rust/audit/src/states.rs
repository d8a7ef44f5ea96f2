//! Heaps that the calls make, with what the oracle's audit says of each.

use heap::Words;
use heap::words::{Waiting, empty, transcribe};
use oracle::generate::{self, Generator};
use oracle::{Answer, Command, Driver, Oracle};
use std::cell::RefCell;
use std::rc::Rc;

/// Commands between two audits.
const BETWEEN: u64 = 12;

/// A heap that calls made, and what the oracle's audit says of it.
pub struct State {
    pub heap: Words,
    pub passes: bool,
}

/// Between some commands of the generator asks for an audit, by turns after a full collection.
struct Asking {
    commands: Generator,
    given: u64,
    /// What was asked for by us: a heap that waits for its audit.
    asked: Option<Words>,
    states: Vec<State>,
}

impl Driver for Asking {
    fn next(&mut self, heap: &Oracle) -> Option<Command> {
        self.given += 1;
        match self.given % BETWEEN {
            0 if self.given.is_multiple_of(3 * BETWEEN) => return Some(Command::FullGc {}),
            1 if heap.out().is_some() => {
                // A finalizer that is out is finished, until the collection is over.
                self.given -= 1;
                return Some(Command::Finish { ok: true });
            }
            2 => {
                let mut ours = empty();
                transcribe(&heap.snapshot(), Waiting::default(), &mut ours);
                self.asked = Some(ours);
                return Some(Command::Audit {});
            }
            _ => {}
        }
        self.commands.next(heap)
    }

    fn answer(&mut self, heap: &Oracle, answer: &Answer) {
        self.commands.answer(heap, answer);
        if let Some(heap) = self.asked.take() {
            let Answer::Flag(passes) = *answer else {
                panic!("an audit answers {answer}");
            };
            self.states.push(State { heap, passes });
        }
    }
}

/// The states of one heap, by its seed.
///
/// # Panics
/// If the oracle refuses the sizes.
#[must_use]
pub fn states(seed: u64, lines: u64) -> Vec<State> {
    let asking = Rc::new(RefCell::new(Asking {
        commands: Generator::new(seed, lines),
        given: 2,
        asked: None,
        states: Vec::new(),
    }));
    let driver: Rc<RefCell<dyn Driver>> = asking.clone();
    let sizes = generate::sizes(seed);
    let mut heap = Oracle::with_driver(sizes, driver).expect("sizes in range");
    heap.run();
    drop(heap);
    let asking = Rc::into_inner(asking).expect("the heap is gone");
    asking.into_inner().states
}
