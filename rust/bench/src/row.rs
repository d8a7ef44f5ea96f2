//! A row over all runs.

use crate::group::{self, Demand, Group};
use crate::line::Line;
use timing::Spread;

pub struct Row {
    pub group: &'static Group,
    pub name: String,
    pub what: String,
    pub ours: Spread,
    pub source: Option<Spread>,
    /// Ours over the source's, each run by itself.
    pub ratio: Option<Spread>,
}

/// The most that a row of collecting may take, as a ratio, and a cheap call, in nanoseconds.
pub const MOST_RATIO: f64 = 1.25;
pub const MOST_NANOSECONDS: f64 = 30.0;

impl Row {
    /// The row of the same line in each run.
    fn of(lines: &[&Line]) -> Self {
        let ratio = |line: &&Line| line.source.map(|source| line.ours / source);
        let sources: Option<Vec<f64>> = lines.iter().map(|line| line.source).collect();
        let ratios: Option<Vec<f64>> = lines.iter().map(ratio).collect();
        Self {
            group: lines[0].group,
            name: lines[0].name.clone(),
            what: lines[0].what.clone(),
            ours: Spread::of(lines.iter().map(|line| line.ours).collect()),
            source: sources.map(Spread::of),
            ratio: ratios.map(Spread::of),
        }
    }

    /// Whether the median is what is asked of its group; none where nothing is asked.
    pub fn is_met(&self) -> Option<bool> {
        match self.group.demand {
            Demand::Collecting => self.ratio.map(|ratio| ratio.median <= MOST_RATIO),
            Demand::Cheap => Some(self.ours.median < MOST_NANOSECONDS),
            Demand::None => None,
        }
    }
}

/// The rows of all runs.
///
/// # Errors
/// Two runs that have not the same rows.
pub fn rows(runs: &[Vec<Line>]) -> Result<Vec<Row>, String> {
    let names = |run: &[Line]| -> Vec<_> {
        let name = |line: &Line| (line.group.key, line.name.clone());
        run.iter().map(name).collect()
    };
    let Some(first) = runs.first() else {
        return Err("no run".into());
    };
    if runs.iter().any(|run| names(run) != names(first)) {
        return Err("two runs have not the same rows".into());
    }
    let row = |i: usize| Row::of(&runs.iter().map(|run| &run[i]).collect::<Vec<_>>());
    Ok((0..first.len()).map(row).collect())
}

/// The groups that have any of these rows, in the order of the page.
pub fn grouped<'a>(
    rows: impl Iterator<Item = &'a Row> + Clone,
) -> Vec<(&'static Group, Vec<&'a Row>)> {
    let of = |group: &'static Group| {
        let rows = rows.clone().filter(|row| row.group.key == group.key);
        (group, rows.collect())
    };
    let all = group::ALL.into_iter().map(of);
    all.filter(|(_, rows): &(_, Vec<_>)| !rows.is_empty())
        .collect()
}

#[cfg(test)]
mod tests {
    use super::*;

    fn line(name: &str, ours: f64, source: Option<f64>) -> Line {
        Line {
            group: &group::PHASES,
            name: name.into(),
            what: String::new(),
            ours,
            source,
        }
    }

    #[test]
    fn a_ratio_is_taken_run_by_run() {
        let runs = [(10.0, 10.0), (30.0, 20.0), (20.0, 10.0)];
        let runs = runs.map(|(ours, source)| vec![line("a", ours, Some(source))]);
        let rows = rows(&runs).expect("the same rows");
        let spread = |low, median, high| Spread { low, median, high };
        assert_eq!(rows[0].ours, spread(10.0, 20.0, 30.0));
        assert_eq!(rows[0].ratio, Some(spread(1.0, 1.5, 2.0)));
        assert_eq!(rows[0].is_met(), Some(false));
    }

    #[test]
    fn runs_that_differ_are_told() {
        assert!(rows(&[]).is_err());
        let other = [vec![line("a", 1.0, None)], vec![line("b", 1.0, None)]];
        assert!(rows(&other).is_err());
    }
}
