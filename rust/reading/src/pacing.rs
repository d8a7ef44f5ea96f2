//! Sizes, budgets, debt and thresholds.

use crate::arena::KINDS;
use crate::buffers::Heap;
use heap::ask::Kind;
use heap::layout::header;

/// The bytes between two steps.
const STEP_SIZE: u64 = 1024;

/// The debt is stored plus this.
const NO_DEBT: u64 = 1 << 63;

const LEAST_THRESHOLD: u64 = 4096;

/// What an object takes in the total.
pub(crate) fn size(kind: Kind) -> u32 {
    match kind {
        Kind::Strings | Kind::Functions | Kind::Userdata => 48,
        Kind::Tables => 64,
        Kind::Upvalues => 24,
        Kind::Threads => 256,
    }
}

impl Heap<'_> {
    pub fn total(&self) -> u64 {
        u64::from(self.words[header::TOTAL])
    }

    fn set_threshold(&mut self, threshold: u64) {
        self.set_long(header::THRESHOLD, threshold);
    }

    fn percent(&self, number: u64) -> u64 {
        number * u64::from(self.words[header::PAUSE])
    }

    /// The budget of an automatic step.
    pub fn automatic_budget(&self) -> u64 {
        match u64::from(self.words[header::STEPMUL]) {
            0 => (1 << 62) - 1,
            stepmul => STEP_SIZE / 100 * stepmul,
        }
    }

    /// The debt grows by total minus threshold, and stops at the ends of 64 bits.
    pub fn grow_debt(&mut self) {
        let exact = i128::from(self.long(header::DEBT)) + i128::from(self.total())
            - i128::from(self.long(header::THRESHOLD));
        let stored = exact.clamp(0, i128::from(u64::MAX)) as u64;
        self.set_long(header::DEBT, stored);
    }

    pub fn clear_debt(&mut self) {
        self.set_long(header::DEBT, NO_DEBT);
    }

    /// A budgeted step ends before the cycle does.
    pub fn end_step(&mut self) {
        let debt = self.long(header::DEBT);
        if debt < NO_DEBT + STEP_SIZE {
            self.set_threshold(self.total() + STEP_SIZE);
        } else {
            self.set_long(header::DEBT, debt - STEP_SIZE);
            self.set_threshold(self.total());
        }
    }

    /// The end of a cycle: the total is counted anew; the threshold goes by the larger of it and the
    /// estimate.
    pub fn update_threshold(&mut self) {
        let occupied = |kind| self.words[self.arena(kind).top + 2] * size(kind);
        let memory: u32 = KINDS.map(occupied).iter().sum();
        self.words[header::TOTAL] = memory;
        let estimate = self.words[header::ESTIMATE].max(memory);
        let threshold = self.percent(u64::from(estimate / 100));
        self.set_threshold(threshold.max(LEAST_THRESHOLD));
    }

    /// While a finalizer runs.
    pub fn raise_threshold(&mut self) {
        self.set_threshold(self.total() + STEP_SIZE);
    }

    /// After one that succeeded.
    pub fn finish_threshold(&mut self) {
        self.set_threshold(self.percent(self.total()) / 100);
    }

    /// An entry that does not fail lowers an estimate above 100 by 100.
    pub fn lower_estimate(&mut self) {
        let estimate = &mut self.words[header::ESTIMATE];
        if *estimate > 100 {
            *estimate -= 100;
        }
    }

    /// 7 where the total is above the limit.
    pub fn is_above_limit(&self) -> bool {
        self.total() > self.long(header::LIMIT)
    }
}
