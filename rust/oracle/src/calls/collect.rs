//! The collector's calls: the source's own, with `Busy` while a finalizer is out.

use crate::answer::{LIMIT, Refusal, Step, UNFIT};
use crate::handout::{Fault, collect};
use crate::heap::Oracle;
use crate::vm::gc::collector::GcPhase;

impl Oracle {
    /// One single step.
    pub fn gc_singlestep(&mut self) -> Step {
        if self.kept.out.is_some() {
            return Step::Busy;
        }
        let result = collect(self, |state| state.gc_singlestep());
        ended(result.map(|cost| Step::Stepped(cost as u64)))
    }

    /// A budgeted step. A budget below 0 acts as 0; the source would count down from it and, at
    /// the far end, overflow.
    pub fn gc_step(&mut self, budget: i64) -> Step {
        if self.kept.out.is_some() {
            return Step::Busy;
        }
        let result = collect(self, |state| state.gc_step(budget.max(0)));
        ended(result.map(|whole| if whole { Step::Ended } else { Step::Unfinished }))
    }

    /// An automatic step. While a finalizer is out the source's own flag lets it add to the debt
    /// and make no step.
    pub fn gc_step_auto(&mut self) -> Step {
        let busy = self.kept.out.is_some();
        let result = collect(self, |state| state.gc_step_auto());
        if busy {
            return Step::Busy;
        }
        let at_pause = self.state.gc.gc_state.phase == GcPhase::Pause;
        ended(result.map(|()| {
            if at_pause {
                Step::Ended
            } else {
                Step::Unfinished
            }
        }))
    }

    /// A full collection.
    pub fn full_gc(&mut self) -> Step {
        if self.kept.out.is_some() {
            return Step::Busy;
        }
        let result = collect(self, |state| state.full_gc());
        ended(result.map(|()| Step::Ended))
    }

    /// The check: a step if the threshold is reached, then the limit. While a finalizer is out
    /// the source's own flag lets it only test the limit.
    pub fn gc_check(&mut self) -> Step {
        let result = collect(self, |state| state.gc_check());
        ended(result.map(|()| Step::Passed))
    }

    /// A finish with no finalizer out. With one out the finish is taken where the finalizer was
    /// handed out, see `driver`.
    pub fn finish(&mut self, _ok: bool) -> Step {
        Step::Refused(Refusal(UNFIT))
    }
}

fn ended(result: Result<Step, Fault>) -> Step {
    match result {
        Ok(step) => step,
        Err(Fault::Finalizer) => Step::Failed,
        Err(Fault::Limit) => Step::Refused(Refusal(LIMIT)),
    }
}
