//! One row of one run: what a run prints, and what is read again when runs are put together.

use crate::group::{self, Group};
use std::fmt;

/// Times are nanoseconds, the median of the run's rounds; rows of ours alone have no source.
#[derive(Clone, Debug, PartialEq)]
pub struct Line {
    pub group: &'static Group,
    pub name: String,
    /// What is timed, in words.
    pub what: String,
    pub ours: f64,
    pub source: Option<f64>,
}

impl fmt::Display for Line {
    fn fmt(&self, f: &mut fmt::Formatter<'_>) -> fmt::Result {
        let (key, name, what, ours) = (self.group.key, &self.name, &self.what, self.ours);
        write!(f, "{key}\t{name}\t{what}\t{ours}\t")?;
        self.source.map_or(Ok(()), |source| source.fmt(f))
    }
}

impl Line {
    /// Reads a printed line.
    ///
    /// # Errors
    /// Says what is wrong with it.
    pub fn read(text: &str) -> Result<Self, String> {
        let fields: Vec<&str> = text.split('\t').collect();
        let [key, name, what, ours, source] = fields[..] else {
            return Err(format!("not five fields: {text}"));
        };
        let number = |field: &str| {
            let number = field.parse::<f64>();
            number.map_err(|_| format!("no number: {field} in {text}"))
        };
        Ok(Self {
            group: group::of(key).ok_or_else(|| format!("no group: {key}"))?,
            name: name.to_string(),
            what: what.to_string(),
            ours: number(ours)?,
            source: (!source.is_empty()).then(|| number(source)).transpose()?,
        })
    }
}

#[cfg(test)]
mod tests {
    use super::*;

    fn line(source: Option<f64>) -> Line {
        Line {
            group: &group::CHEAP,
            name: "push".into(),
            what: "a push, on an empty stack".into(),
            ours: 25.25,
            source,
        }
    }

    #[test]
    fn a_printed_line_is_read_again() {
        for line in [line(None), line(Some(4.5))] {
            assert_eq!(Line::read(&line.to_string()), Ok(line));
        }
    }

    #[test]
    fn odd_lines_are_told() {
        for odd in [
            "",
            "cheap\tpush",
            "none\ta\tb\t1\t",
            "cheap\ta\tb\tx\t",
            "cheap\ta\tb\t1\tx",
        ] {
            assert!(Line::read(odd).is_err(), "{odd}");
        }
    }
}
