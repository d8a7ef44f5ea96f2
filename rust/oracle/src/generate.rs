//! Random scripts that cover the calls.
//!
//! A generator is a driver like any other: it looks at the heap that its own commands have made
//! so far, so most of them succeed; a small share is wrong on purpose (stale handles, indices
//! outside their range, a finish too many).

mod collecting;
mod making;
mod pick;
mod stacks;
mod storing;

use crate::answer::Answer;
use crate::command::Command;
use crate::driver::Driver;
use crate::heap::Oracle;
use crate::random::Random;
use crate::refs::AnyRef;
use crate::sizes::Sizes;
use std::cell::RefCell;
use std::rc::Rc;

/// How a command is made up.
type Maker = fn(&mut Generator, &Oracle) -> Command;

/// Makes commands up and keeps them.
pub struct Generator {
    random: Random,
    left: u64,
    script: Vec<Command>,
    /// A finalizer was handed out and is not finished.
    out: bool,
    /// A run of one kind of object, and how many are still to be made.
    burst: Option<(Maker, u32)>,
    /// Every handle that a call has answered; some are stale by now.
    seen: Vec<AnyRef>,
    /// Counts new strings, so that they differ.
    strings: u32,
    /// How many commands in a hundred are the collector's: few let much garbage gather.
    collecting: u32,
    /// The command that was just made up had nothing to name: it will be refused.
    missed: bool,
}

impl Generator {
    /// A generator of so many commands.
    #[must_use]
    pub fn new(seed: u64, lines: u64) -> Self {
        let mut random = Random::new(seed);
        let collecting = random.pick(&[25, 25, 40, 8, 3]).unwrap_or(25);
        Self {
            random,
            collecting,
            left: lines,
            script: Vec::new(),
            out: false,
            burst: None,
            seen: Vec::new(),
            strings: 0,
            missed: false,
        }
    }

    fn command(&mut self, heap: &Oracle) -> Command {
        if self.out && self.random.percent(35) {
            let ok = !self.random.percent(25);
            return Command::Finish { ok };
        }
        if let Some((maker, left)) = self.burst
            && self.random.percent(90)
        {
            self.burst = (left > 1).then(|| (maker, left.saturating_sub(1)));
            return maker(self, heap);
        }
        // A run longer than a sweep step makes sense only where there is room for one.
        let room = heap.sizes().tables > 80;
        if room && self.burst.is_none() && self.random.below(250) == 0 {
            self.burst = self.random.pick(making::BURSTS).map(|maker| (maker, 90));
        }
        let mut command = self.any_command(heap);
        while self.missed && !self.random.percent(15) {
            command = self.any_command(heap);
        }
        command
    }

    fn any_command(&mut self, heap: &Oracle) -> Command {
        let collecting = self.random.percent(self.collecting);
        let menu = match self.random.below(75) {
            _ if collecting => collecting::MENU,
            0..28 => making::MENU,
            28..56 => storing::MENU,
            56..61 => stacks::MENU,
            _ => stacks::MAIN_MENU,
        };
        let maker = self.choose(menu);
        self.missed = false;
        maker(self, heap)
    }

    /// One of a menu, by weight.
    fn choose(&mut self, menu: &[(u32, Maker)]) -> Maker {
        let sum = menu.iter().map(|(weight, _)| weight).sum();
        let mut at = self.random.below(sum);
        for (weight, maker) in menu {
            if at < *weight {
                return *maker;
            }
            at -= weight;
        }
        menu[0].1
    }
}

impl Driver for Generator {
    fn next(&mut self, heap: &Oracle) -> Option<Command> {
        self.left = self.left.checked_sub(1)?;
        let command = self.command(heap);
        if matches!(command, Command::Finish { .. }) {
            self.out = false;
        }
        self.script.push(command.clone());
        Some(command)
    }

    fn answer(&mut self, heap: &Oracle, answer: &Answer) {
        self.out = heap.out().is_some();
        if let Answer::Handle(handle) = answer {
            self.seen.push(*handle);
        }
    }
}

/// Sizes by the seed: mostly ones longer than a sweep step, else small ones that fill up.
#[must_use]
pub fn sizes(seed: u64) -> Sizes {
    let mut random = Random::new(seed ^ 0x5eed);
    if random.percent(65) {
        return Sizes::default();
    }
    let [strings, tables] = [(); 2].map(|()| 2 + random.below(40));
    let [closures, upvalues, userdata, threads] = [(); 4].map(|()| random.below(20));
    Sizes {
        strings,
        tables,
        closures,
        upvalues,
        userdata,
        threads,
        prototypes: random.below(8),
        stack: random.below(12),
        open: random.below(6),
        frames: 1 + random.below(4),
    }
}

/// A script of so many commands for a heap of these sizes; none if the sizes are refused.
#[must_use]
pub fn commands(seed: u64, lines: u64, sizes: Sizes) -> Option<Vec<Command>> {
    let generator = Rc::new(RefCell::new(Generator::new(seed, lines)));
    let driver: Rc<RefCell<dyn Driver>> = generator.clone();
    Oracle::with_driver(sizes, driver).ok()?.run();
    Some(std::mem::take(&mut generator.borrow_mut().script))
}

/// The text of such a script, with its sizes as first line and a dump as last.
#[must_use]
pub fn script(seed: u64, lines: u64, sizes: Sizes) -> Option<String> {
    let numbers = <[u32; 10]>::from(sizes).map(|n| n.to_string()).join(" ");
    let mut text = format!("sizes {numbers}\n");
    for command in commands(seed, lines, sizes)? {
        text.push_str(&format!("{command}\n"));
    }
    text.push_str("dump\n");
    Some(text)
}
