//! A stand-in for the engine: a second oracle that is given the same commands and transcribed. It
//! tries the comparison itself, as long as there is nothing else to compare; it says nothing of
//! the engine.

use crate::engine::{Call, Engine, OUT, Told};
use heap::Words;
use heap::words::{Waiting, empty, transcribe};
use oracle::{Answer, Command, Driver, Oracle, Sizes, Snapshot, Step};
use std::cell::RefCell;
use std::rc::Rc;
use std::sync::mpsc::{Receiver, Sender, channel};
use std::thread::{self, JoinHandle};

/// Takes commands from one channel and gives their answers to another.
struct Remote {
    commands: Receiver<Command>,
    answers: Sender<Answer>,
}

impl Driver for Remote {
    fn next(&mut self, _: &Oracle) -> Option<Command> {
        self.commands.recv().ok()
    }

    fn answer(&mut self, _: &Oracle, answer: &Answer) {
        // Nobody may be waiting any more; then the next command does not come.
        let _ = self.answers.send(answer.clone());
    }
}

/// The second oracle runs in a thread of its own: a step that hands a finalizer out stays on its
/// stack, while calls here return.
pub struct StandIn {
    commands: Option<Sender<Command>>,
    answers: Receiver<Answer>,
    thread: Option<JoinHandle<()>>,
    /// Its heap.
    mine: Words,
    /// What it keeps in the words of a finalizer that is out.
    waiting: Waiting,
    /// How many it has handed out.
    handed: u64,
}

impl StandIn {
    /// # Panics
    /// If the sizes are refused.
    #[must_use]
    pub fn new(sizes: Sizes) -> Self {
        let (commands, taken) = channel();
        let (given, answers) = channel();
        let work = move || {
            let remote = Remote {
                commands: taken,
                answers: given,
            };
            let driver: Rc<RefCell<dyn Driver>> = Rc::new(RefCell::new(remote));
            Oracle::with_driver(sizes, driver)
                .expect("sizes in range")
                .run();
        };
        Self {
            commands: Some(commands),
            answers,
            thread: Some(thread::spawn(work)),
            mine: empty(),
            waiting: Waiting::default(),
            handed: 0,
        }
    }

    fn ask(&mut self, command: Command) -> Answer {
        let sent = self.commands.as_ref().map(|c| c.send(command));
        assert!(matches!(sent, Some(Ok(()))), "the second oracle is gone");
        self.answers.recv().expect("an answer for each command")
    }

    fn snapshot(&mut self) -> Snapshot {
        match self.ask(Command::Dump {}) {
            Answer::Snapshot(whole) => *whole,
            other => panic!("a dump answers {other}"),
        }
    }

    /// Makes the step on the second oracle. Words that are not its own it refuses with 1.
    fn call(&mut self, call: Call, w: &mut [u32], b: &mut [u8], out: &mut [u32]) -> u32 {
        transcribe(&self.snapshot(), self.waiting, &mut self.mine);
        if w != self.mine.words || b != self.mine.bytes {
            return 1;
        }
        let answer = self.ask(call.into());
        let after = self.snapshot();
        if matches!(answer, Answer::Step(Step::Handed(..))) {
            self.handed += 1;
            self.waiting = Waiting {
                interrupted: 1 + call.place() as u32,
                remaining: self.handed << 32 | u64::from(u32::MAX),
            };
        } else if after.out.is_none() {
            self.waiting = Waiting::default();
        }
        transcribe(&after, self.waiting, &mut self.mine);
        w.copy_from_slice(&self.mine.words);
        b.copy_from_slice(&self.mine.bytes);
        let before: [u32; OUT] = std::array::from_fn(|k| out[k]);
        let told = Told::of(&answer, before);
        out.copy_from_slice(&told.out);
        told.code
    }
}

impl Drop for StandIn {
    fn drop(&mut self) {
        // Without commands the second oracle ends.
        self.commands = None;
        if let Some(thread) = self.thread.take() {
            let _ = thread.join();
        }
    }
}

impl Engine for StandIn {
    fn gc_singlestep(&mut self, w: &mut [u32], b: &mut [u8], out: &mut [u32]) -> u32 {
        self.call(Call::Single, w, b, out)
    }

    fn gc_step(&mut self, w: &mut [u32], b: &mut [u8], budget: i64, out: &mut [u32]) -> u32 {
        self.call(Call::Budgeted(budget), w, b, out)
    }

    fn gc_step_auto(&mut self, w: &mut [u32], b: &mut [u8], out: &mut [u32]) -> u32 {
        self.call(Call::Automatic, w, b, out)
    }

    fn gc_check(&mut self, w: &mut [u32], b: &mut [u8], out: &mut [u32]) -> u32 {
        self.call(Call::Check, w, b, out)
    }

    fn full_gc(&mut self, w: &mut [u32], b: &mut [u8], out: &mut [u32]) -> u32 {
        self.call(Call::Full, w, b, out)
    }

    fn finish(&mut self, w: &mut [u32], b: &mut [u8], ok: u32, out: &mut [u32]) -> u32 {
        self.call(Call::Finish(ok != 0), w, b, out)
    }

    fn follow(&mut self, command: &Command) {
        self.ask(command.clone());
    }
}
