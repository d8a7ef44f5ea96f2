//! The same operation on both arenas, and everything compared after it.

use crate::{Ours, Refused, Swept};
use oracle::slots::Slots;
use std::fmt;

/// One operation of the arena. Colours are 1 and 2 (the whites), 3 (gray) and 4 (black).
#[derive(Clone, Copy, Debug, PartialEq, Eq)]
pub enum Operation {
    Take {
        colour: u32,
    },
    Free {
        index: u32,
        generation: u32,
    },
    Paint {
        index: u32,
        generation: u32,
        colour: u32,
    },
    Sweep {
        dead: u32,
        white: u32,
        start: u32,
        most: u32,
    },
}

/// An answer, as the list of answers has it.
#[derive(Clone, Copy, Debug, PartialEq, Eq)]
pub enum Answer {
    Done,
    Slot(u32, u32),
    Swept(Swept),
    Refused(Refused),
}

impl fmt::Display for Operation {
    fn fmt(&self, f: &mut fmt::Formatter<'_>) -> fmt::Result {
        match *self {
            Self::Take { colour } => write!(f, "take {colour}"),
            Self::Free { index, generation } => write!(f, "free {index} {generation}"),
            Self::Paint {
                index,
                generation,
                colour,
            } => {
                write!(f, "paint {index} {generation} {colour}")
            }
            Self::Sweep {
                dead,
                white,
                start,
                most,
            } => {
                write!(f, "sweep {dead} {white} {start} {most}")
            }
        }
    }
}

impl fmt::Display for Answer {
    fn fmt(&self, f: &mut fmt::Formatter<'_>) -> fmt::Result {
        match *self {
            Self::Done => write!(f, "done"),
            Self::Slot(index, generation) => write!(f, "slot {index} {generation}"),
            Self::Swept(s) => {
                let end = if s.done { "done" } else { "unfinished" };
                write!(f, "freed {} next {} {end}", s.freed, s.next)
            }
            Self::Refused(Refused(number)) => write!(f, "refused {number}"),
        }
    }
}

/// Both arenas, with the same operations behind them.
pub struct Pair {
    pub ours: Ours,
    pub source: Slots,
    made: u32,
}

impl Pair {
    pub fn new(slots: usize) -> Self {
        Self {
            ours: Ours::new(slots),
            source: Slots::new(),
            made: 0,
        }
    }

    /// Makes the operation on both. An error says in words what differs.
    pub fn apply(&mut self, operation: Operation) -> Result<Answer, String> {
        let ours = self.on_ours(operation);
        let source = self.on_source(operation);
        if ours != source {
            return Err(format!("{operation}: ours {ours}, the source {source}"));
        }
        if let Answer::Slot(index, _) = ours {
            self.fill(index as usize);
        }
        self.compare()
            .map_err(|what| format!("{operation}: {what}"))?;
        Ok(ours)
    }

    fn on_ours(&mut self, operation: Operation) -> Answer {
        let refused = |r: Result<Answer, Refused>| r.unwrap_or_else(Answer::Refused);
        refused(match operation {
            Operation::Take { colour } => self
                .ours
                .take(colour)
                .map(|(index, g)| Answer::Slot(index, g)),
            Operation::Free { index, generation } => {
                self.ours.free(index, generation).map(|()| Answer::Done)
            }
            Operation::Paint {
                index,
                generation,
                colour,
            } => self
                .ours
                .paint(index, generation, colour)
                .map(|()| Answer::Done),
            Operation::Sweep {
                dead,
                white,
                start,
                most,
            } => self.ours.sweep(dead, white, start, most).map(Answer::Swept),
        })
    }

    /// The source's answer, with the three mended faults of document 01 kept from it: an arena has
    /// a chosen number of slots, a free slot is not freed, and a start past the end sweeps nothing.
    fn on_source(&mut self, operation: Operation) -> Answer {
        let stale = Answer::Refused(Refused(2));
        match operation {
            Operation::Take { .. } if self.source.count() as usize == self.ours.slots => {
                Answer::Refused(Refused(3))
            }
            Operation::Take { colour } => {
                let (index, generation) = self.source.take(self.made, colour);
                Answer::Slot(index, generation)
            }
            Operation::Free { index, generation } => {
                let freed =
                    self.source.names(index, generation) && self.source.free(index, generation);
                if freed { Answer::Done } else { stale }
            }
            Operation::Paint {
                index,
                generation,
                colour,
            } => {
                let painted = self.source.paint(index, generation, colour);
                if painted { Answer::Done } else { stale }
            }
            Operation::Sweep { start, .. } if start > self.source.fresh() => Answer::Swept(Swept {
                freed: 0,
                next: start,
                done: true,
            }),
            Operation::Sweep {
                dead,
                white,
                start,
                most,
            } => {
                let (freed, next, done) = self.source.sweep(dead, white, start, most);
                Answer::Swept(Swept { freed, next, done })
            }
        }
    }

    /// Gives the slot just taken a body that no other slot has, in both.
    fn fill(&mut self, i: usize) {
        let (words, bytes) = self.ours.body(i);
        words.fill(self.made);
        bytes.fill(1 + (self.made % 255) as u8);
        self.made += 1;
    }

    fn compare(&mut self) -> Result<(), String> {
        if self.ours.fresh() != self.source.fresh() {
            return Err(format!(
                "fresh index {} and {}",
                self.ours.fresh(),
                self.source.fresh()
            ));
        }
        if self.ours.count() != self.source.count() {
            return Err(format!(
                "count {} and {}",
                self.ours.count(),
                self.source.count()
            ));
        }
        if !self.ours.chain().eq(self.source.chain()) {
            let ours: Vec<u32> = self.ours.chain().collect();
            let source: Vec<u32> = self.source.chain().collect();
            return Err(format!("chain {ours:?} and {source:?}"));
        }
        (0..self.source.fresh() as usize).try_for_each(|i| self.compare_slot(i))
    }

    fn compare_slot(&mut self, i: usize) -> Result<(), String> {
        let (generation, colour, value) = self.source.slot(i);
        if self.ours.slot(i) != (generation, colour) {
            let ours = self.ours.slot(i);
            return Err(format!("slot {i}: {ours:?} and {:?}", (generation, colour)));
        }
        let (words, bytes) = self.ours.body(i);
        let word = value.unwrap_or(0);
        let byte = value.map_or(0, |v| 1 + (v % 255) as u8);
        if words.iter().any(|&x| x != word) || bytes.iter().any(|&x| x != byte) {
            return Err(format!(
                "slot {i}: body {words:?} {bytes:?}, value {value:?}"
            ));
        }
        Ok(())
    }
}
