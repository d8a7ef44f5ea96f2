//! Commands in, answers out.
//!
//! A step of the source that hands a finalizer out is still on the Rust stack while the finalizer
//! runs. So it is not the caller that drives the heap but the heap that asks a driver for
//! commands: in [`Oracle::run`], and again while a finalizer is out. To the driver it is one
//! plain row: every command gets exactly one answer, before the next command is asked for.

use crate::answer::{Answer, Step};
use crate::command::Command;
use crate::heap::Oracle;

/// Gives commands and takes their answers.
pub trait Driver {
    /// The next command, or none at the end.
    fn next(&mut self, heap: &Oracle) -> Option<Command>;

    /// The answer of the last command; for a finish, that of the step that goes on.
    fn answer(&mut self, heap: &Oracle, answer: &Answer);
}

/// How the commands for a finalizer ended.
#[derive(PartialEq, Eq)]
pub(crate) enum Served {
    Succeeded,
    Failed,
    /// No more commands.
    Ended,
}

impl Oracle {
    /// Runs the driver's commands to their end. If that comes while a finalizer is out, the step
    /// that waits for it gets no answer and the heap is of no further use.
    pub fn run(&mut self) {
        let Some(driver) = self.kept.driver.clone() else {
            return;
        };
        while !self.kept.ended {
            let Some(command) = driver.borrow_mut().next(self) else {
                return;
            };
            let answer = self.call(command);
            if !self.kept.ended {
                driver.borrow_mut().answer(self, &answer);
            }
        }
    }

    /// Answers that a finalizer is out and runs commands until one finishes it.
    pub(crate) fn serve_finalizer(&mut self) -> Served {
        let (Some(driver), Some((userdata, method))) = (self.kept.driver.clone(), self.kept.out)
        else {
            return Served::Succeeded;
        };
        let handed = Answer::Step(Step::Handed(userdata, method));
        driver.borrow_mut().answer(self, &handed);
        loop {
            let command = driver.borrow_mut().next(self);
            match command {
                None => return Served::Ended,
                Some(Command::Finish { ok: true }) => return Served::Succeeded,
                Some(Command::Finish { ok: false }) => return Served::Failed,
                Some(other) => {
                    let answer = self.call(other);
                    driver.borrow_mut().answer(self, &answer);
                }
            }
        }
    }
}
