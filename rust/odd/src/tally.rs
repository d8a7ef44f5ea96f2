//! How many calls were compared, by kind of buffer, by call and by answer.

use crate::finding::Told;
use crate::rows::Row;
use std::collections::BTreeMap;
use std::fmt;
use steps::engine::{KINDS, OUT};

/// What the buffers were.
#[derive(Clone, Copy, Debug, PartialEq, Eq, PartialOrd, Ord)]
pub enum Kind {
    /// Arbitrary words and bytes of any length.
    Arbitrary,
    /// The same, but with a header that test 1 accepts.
    Accepted,
    /// A heap that calls made, some words of it changed.
    Damaged,
    /// The same of a small heap, one word at a time, every word in turn.
    Walked,
    /// A heap that calls made, in buffers of every length around the needed one.
    Cut,
    /// Large heaps made to take long.
    Slow,
}

/// Counts of calls compared.
#[derive(Clone, Debug, Default)]
pub struct Tally {
    pub kinds: BTreeMap<Kind, u64>,
    /// By call, then by answer.
    pub calls: BTreeMap<&'static str, BTreeMap<Answer, u64>>,
}

/// What an answer counts as: a refusal by its number; of a step which of its answers it is, of the audit
/// yes or no; else served.
#[derive(Clone, Copy, Debug, PartialEq, Eq, PartialOrd, Ord)]
pub enum Answer {
    Served(&'static str),
    Refused(u32),
}

impl Answer {
    fn of(row: &Row, told: &Told) -> Self {
        match (told.code, told.out.first()) {
            (0, Some(kind)) if row.tells == OUT => Self::Served(KINDS[*kind as usize]),
            (0, Some(yes)) if row.name == "audit" => Self::Served(["no", "yes"][*yes as usize]),
            (0, _) => Self::Served("served"),
            (number, _) => Self::Refused(number),
        }
    }
}

impl fmt::Display for Answer {
    fn fmt(&self, f: &mut fmt::Formatter<'_>) -> fmt::Result {
        match self {
            Self::Served(how) => write!(f, "{how}"),
            Self::Refused(number) => write!(f, "refused {number}"),
        }
    }
}

impl Tally {
    pub fn add(&mut self, kind: Kind, row: &Row, told: &Told) {
        *self.kinds.entry(kind).or_default() += 1;
        let answers = self.calls.entry(row.name).or_default();
        *answers.entry(Answer::of(row, told)).or_default() += 1;
    }

    #[must_use]
    pub fn total(&self) -> u64 {
        self.kinds.values().sum()
    }

    /// How many of this kind.
    #[must_use]
    pub fn of(&self, kind: Kind) -> u64 {
        self.kinds.get(&kind).copied().unwrap_or(0)
    }

    /// How often a call was served.
    #[must_use]
    pub fn served(&self, name: &str) -> u64 {
        let answers = self.calls.get(name).into_iter().flatten();
        let served = answers.filter(|(answer, _)| matches!(answer, Answer::Served(_)));
        served.map(|(_, n)| n).sum()
    }

    /// How often a call gave this answer.
    #[must_use]
    pub fn answered(&self, name: &str, answer: Answer) -> u64 {
        let answers = self.calls.get(name);
        answers.and_then(|a| a.get(&answer)).copied().unwrap_or(0)
    }
}

impl fmt::Display for Tally {
    fn fmt(&self, f: &mut fmt::Formatter<'_>) -> fmt::Result {
        let kinds = self.kinds.iter().map(|(kind, n)| format!("{kind:?} {n}"));
        write!(f, "buffers: {}", kinds.collect::<Vec<_>>().join(", "))?;
        for (name, answers) in &self.calls {
            let total: u64 = answers.values().sum();
            let answers = answers.iter().map(|(answer, n)| format!("{answer} {n}"));
            let answers = answers.collect::<Vec<_>>().join(", ");
            write!(f, "\n{name:22}{total:9}: {answers}")?;
        }
        Ok(())
    }
}
