//! Sweep steps with their cursor: the strings, then tables, functions, upvalues, userdata, threads.

use crate::arena::Swept;
use crate::buffers::Heap;
use crate::pacing::size;
use crate::roots::phase;
use heap::ask::Kind;
use heap::layout::header;

const CURSOR_ARENA: usize = header::CURSOR;
const CURSOR_SLOT: usize = header::CURSOR + 1;

/// The arenas that the cursor counts, from 0 on. One past the last is the last.
const SWEPT: [Kind; 5] = [
    Kind::Tables,
    Kind::Functions,
    Kind::Upvalues,
    Kind::Userdata,
    Kind::Threads,
];

const LAST: u32 = 4;

impl Heap<'_> {
    pub fn set_cursor(&mut self, arena: u32, slot: u32) {
        self.words[CURSOR_ARENA] = arena;
        self.words[CURSOR_SLOT] = slot;
    }

    /// Slots of one arena from the cursor on; what was freed leaves total and estimate.
    fn sweep_some(&mut self, kind: Kind) -> Swept {
        let swept = self.sweep_partial(kind, self.words[CURSOR_SLOT]);
        let bytes = swept.freed * size(kind);
        for place in [header::TOTAL, header::ESTIMATE] {
            self.words[place] = self.words[place].saturating_sub(bytes);
        }
        swept
    }

    pub fn sweep_strings(&mut self) -> u64 {
        let swept = self.sweep_some(Kind::Strings);
        if swept.done {
            self.words[header::PHASE] = phase::SWEEP;
            self.set_cursor(0, 0);
        } else {
            self.words[CURSOR_SLOT] = swept.next;
        }
        10
    }

    /// At the end of the last arena the cursor stays where the batch began.
    pub fn sweep_others(&mut self) -> u64 {
        let arena = self.words[CURSOR_ARENA];
        let swept = self.sweep_some(SWEPT[arena.min(LAST) as usize]);
        if !swept.done {
            self.words[CURSOR_SLOT] = swept.next;
        } else if arena >= LAST {
            self.words[header::PHASE] = phase::FINALIZE;
        } else {
            self.set_cursor(arena + 1, 0);
        }
        800
    }
}
