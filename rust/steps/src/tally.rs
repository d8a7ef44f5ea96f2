//! How many steps were compared, by phase, call and answer.

use crate::engine::{Call, KINDS, Told};
use std::collections::BTreeMap;
use std::fmt;

const PHASES: [&str; 5] = ["Pause", "Propagate", "SweepString", "Sweep", "Finalize"];

/// Counts of steps compared.
#[derive(Clone, Debug, Default, PartialEq, Eq)]
pub struct Tally {
    /// By the phase before the step, then by call.
    pub steps: [[u64; 6]; 5],
    /// By answer: its kind, or `refused` and the number.
    pub answers: BTreeMap<String, u64>,
}

impl Tally {
    pub(crate) fn add(&mut self, phase: u32, call: Call, told: Told) {
        self.steps[phase as usize][call.place()] += 1;
        let name = match told.code {
            0 => KINDS[told.out[0] as usize].to_owned(),
            code => format!("refused {code}"),
        };
        *self.answers.entry(name).or_default() += 1;
    }

    /// Adds those of another heap.
    pub fn join(&mut self, other: &Self) {
        for (mine, theirs) in self.steps.iter_mut().zip(&other.steps) {
            for (n, more) in mine.iter_mut().zip(theirs) {
                *n += more;
            }
        }
        for (name, more) in &other.answers {
            *self.answers.entry(name.clone()).or_default() += more;
        }
    }

    #[must_use]
    pub fn total(&self) -> u64 {
        self.steps.iter().flatten().sum()
    }

    /// How often this answer was given.
    #[must_use]
    pub fn answered(&self, name: &str) -> u64 {
        self.answers.get(name).copied().unwrap_or(0)
    }
}

impl fmt::Display for Tally {
    fn fmt(&self, f: &mut fmt::Formatter<'_>) -> fmt::Result {
        write!(f, "{:12}", "phase")?;
        Call::NAMES
            .iter()
            .try_for_each(|name| write!(f, "{name:>11}"))?;
        for (phase, counts) in PHASES.iter().zip(&self.steps) {
            write!(f, "\n{phase:12}")?;
            counts.iter().try_for_each(|n| write!(f, "{n:11}"))?;
        }
        write!(f, "\nhand-outs {}", self.answered("handed"))?;
        write!(f, ", failures {}", self.answered("failed"))?;
        write!(f, "\nanswers:")?;
        let mut comma = "";
        for (name, n) in &self.answers {
            write!(f, "{comma} {name} {n}")?;
            comma = ",";
        }
        Ok(())
    }
}
