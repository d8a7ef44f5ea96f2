//! How many calls were compared, by command, phase and answer.

use oracle::{Answer, Command, Step};
use std::collections::BTreeMap;
use std::fmt;

/// What an answer counts as.
fn name(answer: &Answer) -> String {
    match answer {
        Answer::Refused(refusal) => refusal.to_string(),
        Answer::Step(Step::Handed(..)) => "handed".to_owned(),
        Answer::Step(Step::Busy) => "busy".to_owned(),
        Answer::Step(Step::Failed) => "failed".to_owned(),
        Answer::Flag(flag) => if *flag { "yes" } else { "no" }.to_owned(),
        _ => "done".to_owned(),
    }
}

/// Counts of calls compared.
#[derive(Clone, Debug, Default, PartialEq, Eq)]
pub struct Tally {
    /// By command, then by answer.
    pub calls: BTreeMap<&'static str, BTreeMap<String, u64>>,
    /// By the phase before the call.
    pub phases: [u64; 5],
}

impl Tally {
    pub(crate) fn add(&mut self, phase: u32, command: &Command, answer: &Answer) {
        let answers = self.calls.entry(command.word()).or_default();
        *answers.entry(name(answer)).or_default() += 1;
        self.phases[phase as usize] += 1;
    }

    /// Adds those of another heap.
    pub fn join(&mut self, other: &Self) {
        for (word, theirs) in &other.calls {
            let answers = self.calls.entry(word).or_default();
            for (answer, n) in theirs {
                *answers.entry(answer.clone()).or_default() += n;
            }
        }
        for (mine, theirs) in self.phases.iter_mut().zip(other.phases) {
            *mine += theirs;
        }
    }

    #[must_use]
    pub fn total(&self) -> u64 {
        self.phases.iter().sum()
    }

    /// How often this command was given.
    #[must_use]
    pub fn given(&self, word: &str) -> u64 {
        self.calls.get(word).map_or(0, |a| a.values().sum())
    }

    /// How often this answer was given to it.
    #[must_use]
    pub fn answered(&self, word: &str, answer: &str) -> u64 {
        let answers = self.calls.get(word);
        answers.and_then(|a| a.get(answer)).copied().unwrap_or(0)
    }
}

impl fmt::Display for Tally {
    fn fmt(&self, f: &mut fmt::Formatter<'_>) -> fmt::Result {
        let [pause, propagate, strings, sweep, finalize] = self.phases;
        write!(
            f,
            "in Pause {pause}, Propagate {propagate}, SweepString {strings}"
        )?;
        write!(f, ", Sweep {sweep}, Finalize {finalize}")?;
        for (word, answers) in &self.calls {
            write!(f, "\n{word:22}{:9}:", self.given(word))?;
            let mut comma = "";
            for (answer, n) in answers {
                write!(f, "{comma} {answer} {n}")?;
                comma = ",";
            }
        }
        Ok(())
    }
}
