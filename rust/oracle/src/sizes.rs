//! The ten chosen sizes of a heap and their ranges.

use crate::answer::{RANGE, Refusal, ensure};

/// The chosen sizes, in the order in which scripts write them.
#[derive(Clone, Copy, Debug, PartialEq, Eq)]
pub struct Sizes {
    pub strings: u32,
    pub tables: u32,
    pub closures: u32,
    pub upvalues: u32,
    pub userdata: u32,
    pub threads: u32,
    pub prototypes: u32,
    pub stack: u32,
    pub open: u32,
    pub frames: u32,
}

/// Limits of single records, the same in every heap.
pub(crate) const STRING_BYTES: usize = 64;
pub(crate) const TABLE_ARRAY: u32 = 64;
pub(crate) const TABLE_NODES: u32 = 64;
pub(crate) const UPVALUES: usize = 16;
pub(crate) const CONSTANTS: usize = 16;
pub(crate) const NESTED: usize = 8;
pub(crate) const THREAD_STACK: u32 = 64;
pub(crate) const THREAD_LIST: usize = 16;
pub(crate) const FUNCTION_INDEX: u32 = 256;
pub(crate) const TYPE_METATABLES: u32 = 9;

/// The largest tracked total.
pub(crate) const TOTAL: usize = (1 << 31) - 1;

impl Default for Sizes {
    /// Every arena is longer than one sweep step, so that batches are seen.
    fn default() -> Self {
        Self::from([200, 200, 170, 170, 170, 100, 64, 64, 16, 8])
    }
}

impl From<[u32; 10]> for Sizes {
    fn from(n: [u32; 10]) -> Self {
        Self {
            strings: n[0],
            tables: n[1],
            closures: n[2],
            upvalues: n[3],
            userdata: n[4],
            threads: n[5],
            prototypes: n[6],
            stack: n[7],
            open: n[8],
            frames: n[9],
        }
    }
}

impl From<Sizes> for [u32; 10] {
    fn from(s: Sizes) -> Self {
        [
            s.strings,
            s.tables,
            s.closures,
            s.upvalues,
            s.userdata,
            s.threads,
            s.prototypes,
            s.stack,
            s.open,
            s.frames,
        ]
    }
}

impl Sizes {
    /// Refusal 4 unless every size lies in its range.
    pub(crate) fn test(self) -> Result<(), Refusal> {
        let two = 2..=4096;
        let others = [self.closures, self.upvalues, self.userdata, self.threads];
        let fit = two.contains(&self.strings)
            && two.contains(&self.tables)
            && others.iter().all(|n| *n <= 4096)
            && self.prototypes <= 256
            && self.stack <= 256
            && self.open <= 64
            && (1..=32).contains(&self.frames);
        ensure(fit, RANGE)
    }
}
