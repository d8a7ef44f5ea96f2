//! Heaps that calls make: a script of the oracle's generator given to ours alone, the heap kept now and
//! then, in whatever phase it is, with or without a finalizer out.

use calls::Collector;
use calls::bend::Bent;
use calls::give::give;
use heap::Words;
use oracle::generate::Generator;
use oracle::random::Random;
use oracle::{Answer, Command, Driver, Oracle, Sizes};
use std::cell::RefCell;
use std::rc::Rc;

/// Commands between two heaps that are kept, at most.
const BETWEEN: u32 = 120;

/// Gives each command of the script to ours too, and keeps heaps.
struct Keeping {
    commands: Bent<Generator>,
    random: Random,
    ours: Collector,
    command: Option<Command>,
    /// Commands until the next one is kept.
    until: u32,
    kept: Vec<Words>,
}

impl Driver for Keeping {
    fn next(&mut self, heap: &Oracle) -> Option<Command> {
        self.command = self.commands.next(heap);
        self.command.clone()
    }

    fn answer(&mut self, heap: &Oracle, answer: &Answer) {
        self.commands.answer(heap, answer);
        if let Some(command) = self.command.take() {
            give(&mut self.ours, &command);
        }
        match self.until.checked_sub(1) {
            Some(until) => self.until = until,
            None => {
                self.kept.push(self.ours.heap.clone());
                self.until = self.random.below(BETWEEN);
            }
        }
    }
}

/// The heaps of a script of so many commands.
///
/// # Panics
/// If the sizes are refused.
#[must_use]
pub fn heaps(sizes: Sizes, seed: u64, commands: u64) -> Vec<Words> {
    let keeping = Rc::new(RefCell::new(Keeping {
        commands: Bent {
            commands: Generator::new(seed, commands),
            random: Random::new(seed ^ 0xbe27),
        },
        random: Random::new(seed ^ 0x900d),
        ours: Collector::new(sizes).expect("sizes in range"),
        command: None,
        until: 20,
        kept: Vec::new(),
    }));
    let driver: Rc<RefCell<dyn Driver>> = keeping.clone();
    let mut heap = Oracle::with_driver(sizes, driver).expect("sizes in range");
    heap.run();
    drop(heap);
    let keeping = Rc::into_inner(keeping).expect("the heap is gone");
    keeping.into_inner().kept
}
