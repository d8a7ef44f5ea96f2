//! The calls that step: single, budgeted, automatic, check, full; hand-out and finish.

use crate::buffers::{Buffers, Heap, Told, unless};
use crate::roots::phase;
use crate::step::{FINALIZER, Step};
use crate::value::{Handle, Value};
use heap::layout::header;

/// What a finalizer interrupted, as the words keep it.
const SINGLE: u32 = 1;
const BUDGETED: u32 = 2;
const CHECK: u32 = 3;
const FULL_FIRST: u32 = 4;
const FULL_SECOND: u32 = 5;

/// The answer of a step, as it is told: its kind, then its numbers.
type Answer = [u32; 6];

const UNFINISHED: Answer = [1, 0, 0, 0, 0, 0];
const ENDED: Answer = [2, 0, 0, 0, 0, 0];
const PASSED: Answer = [3, 0, 0, 0, 0, 0];
const HANDED: u32 = 4;
const BUSY: Answer = [5, 0, 0, 0, 0, 0];
const FAILED: Answer = [6, 0, 0, 0, 0, 0];

fn stepped(cost: u64) -> Answer {
    [0, cost as u32, 0, 0, 0, 0]
}

impl Heap<'_> {
    fn is_out(&self) -> bool {
        self.words[header::INTERRUPTED] != 0
    }

    /// A finalizer is out: the words keep what it interrupted and the budget before its 100.
    fn hand_out(&mut self, what: u32, left: u64, (ud, method): (Handle, Value)) -> Answer {
        self.words[header::INTERRUPTED] = what;
        self.set_optional(header::OUT, Some(ud));
        self.set_long(header::REMAINING, left);
        [HANDED, ud.0, ud.1, method.tag, method.low, method.high]
    }

    fn single_step(&mut self) -> Answer {
        match self.single() {
            Step::Cost(cost) => stepped(cost),
            Step::Out(ud, method) => self.hand_out(SINGLE, 0, (ud, method)),
        }
    }

    /// Steps until the budget is at 0 or below, or at Pause.
    fn budgeted(&mut self, what: u32, mut left: u64) -> Answer {
        loop {
            match self.single() {
                Step::Out(ud, method) => return self.hand_out(what, left, (ud, method)),
                Step::Cost(cost) => {
                    if let Some(over) = self.charge(&mut left, cost) {
                        return over;
                    }
                }
            }
        }
    }

    /// After a step of this cost: whether the call is over.
    fn charge(&mut self, left: &mut u64, cost: u64) -> Option<Answer> {
        if self.phase() == phase::PAUSE {
            self.update_threshold();
            return Some(ENDED);
        }
        *left = left.saturating_sub(cost);
        if *left > 0 {
            return None;
        }
        self.end_step();
        Some(UNFINISHED)
    }

    fn automatic(&mut self, what: u32) -> Answer {
        self.grow_debt();
        if self.is_out() {
            return BUSY;
        }
        self.budgeted(what, self.automatic_budget())
    }

    /// The limit is tested when a check's step has ended: one handed out has not ended it.
    fn limited(&self, answer: Answer) -> Told<Answer> {
        if answer[0] == HANDED {
            return Ok(answer);
        }
        unless(!self.is_above_limit(), 7)?;
        Ok(PASSED)
    }

    fn check(&mut self) -> Told<Answer> {
        let due = self.total() >= self.long(header::THRESHOLD);
        if due && !self.is_out() {
            let answer = self.automatic(CHECK);
            return self.limited(answer);
        }
        self.limited(PASSED)
    }

    /// Marking under way is given up; what is swept then is in the white before.
    fn full(&mut self) -> Answer {
        if self.phase() <= phase::PROPAGATE {
            self.empty_lists();
            self.begin_sweep();
        }
        self.full_first()
    }

    /// To the end of what was under way, then a cycle from its beginning.
    fn full_first(&mut self) -> Answer {
        while self.phase() > phase::PROPAGATE {
            if let Step::Out(ud, method) = self.single() {
                return self.hand_out(FULL_FIRST, 0, (ud, method));
            }
        }
        self.begin_cycle();
        self.full_second()
    }

    fn full_second(&mut self) -> Answer {
        while self.phase() != phase::PAUSE {
            if let Step::Out(ud, method) = self.single() {
                return self.hand_out(FULL_SECOND, 0, (ud, method));
            }
        }
        self.update_threshold();
        ENDED
    }

    /// A finalizer is over: none is out, and what it interrupted goes on unless it failed.
    fn finish(&mut self, ok: bool) -> Told<Answer> {
        let what = self.words[header::INTERRUPTED];
        unless(what != 0, 5)?;
        let left = self.long(header::REMAINING);
        self.words[header::INTERRUPTED] = 0;
        self.set_optional(header::OUT, None);
        self.set_long(header::REMAINING, 0);
        if !ok {
            return Ok(FAILED);
        }
        self.finish_threshold();
        self.lower_estimate();
        self.resume(what, left)
    }

    /// A number that no step keeps is read as the second half of a full collection.
    fn resume(&mut self, what: u32, left: u64) -> Told<Answer> {
        Ok(match what {
            SINGLE => stepped(FINALIZER),
            BUDGETED => self.go_on(what, left),
            CHECK => {
                let answer = self.go_on(what, left);
                return self.limited(answer);
            }
            FULL_FIRST => self.full_first(),
            _ => self.full_second(),
        })
    }

    fn go_on(&mut self, what: u32, mut left: u64) -> Answer {
        self.charge(&mut left, FINALIZER)
            .unwrap_or_else(|| self.budgeted(what, left))
    }

    /// Busy while a finalizer is out.
    fn unless_out(&mut self, work: impl FnOnce(&mut Self) -> Answer) -> Told<Answer> {
        Ok(if self.is_out() { BUSY } else { work(self) })
    }
}

impl Buffers<'_> {
    pub fn gc_singlestep(&mut self, out: &mut [u32]) -> u32 {
        self.tell(out, |h| h.unless_out(Heap::single_step))
    }

    /// A budget below 0 acts as 0.
    pub fn gc_step(&mut self, budget: i64, out: &mut [u32]) -> u32 {
        let budget = u64::try_from(budget).unwrap_or(0);
        self.tell(out, |h| h.unless_out(|h| h.budgeted(BUDGETED, budget)))
    }

    pub fn gc_step_auto(&mut self, out: &mut [u32]) -> u32 {
        self.tell(out, |h| Ok(h.automatic(BUDGETED)))
    }

    pub fn gc_check(&mut self, out: &mut [u32]) -> u32 {
        self.tell(out, |h| h.check())
    }

    pub fn full_gc(&mut self, out: &mut [u32]) -> u32 {
        self.tell(out, |h| h.unless_out(Heap::full))
    }

    pub fn finish(&mut self, ok: u32, out: &mut [u32]) -> u32 {
        self.tell(out, |h| h.finish(ok != 0))
    }
}
