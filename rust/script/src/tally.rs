//! What was compared, counted by the oracle's output.

use std::fmt;

/// Counts of lines.
#[derive(Clone, Copy, Debug, Default, PartialEq, Eq)]
pub struct Tally {
    pub lines: usize,
    pub made: usize,
    pub collections: usize,
    pub finalizers: usize,
    /// By refusal number.
    pub refused: [usize; 9],
}

impl Tally {
    /// Adds a script of so many lines and what it prints.
    pub fn add(&mut self, lines: usize, printed: &str) {
        self.lines += lines;
        for line in printed.lines() {
            let words: Vec<&str> = line.split(' ').collect();
            match words.as_slice() {
                ["line", _, "refused", number] => {
                    let number: usize = number.parse().unwrap_or_default();
                    self.refused[number.min(8)] += 1;
                }
                ["freed", ..] => self.collections += 1,
                ["final", ..] => self.finalizers += 1,
                _ => self.made += 1,
            }
        }
    }
}

impl fmt::Display for Tally {
    fn fmt(&self, f: &mut fmt::Formatter<'_>) -> fmt::Result {
        let Self {
            lines,
            made,
            collections,
            finalizers,
            refused,
        } = self;
        write!(
            f,
            "{lines} lines: {made} made, {collections} collections, {finalizers} finalizers"
        )?;
        for (number, count) in refused.iter().enumerate().filter(|(_, count)| **count > 0) {
            write!(f, ", {count} refused {number}")?;
        }
        Ok(())
    }
}
