//! One run: every row, both sides in turns.

use crate::group::Group;
use crate::line::Line;
use timing::Spread;

/// The rows of one group in a run; each is printed when it is done.
pub struct Run {
    pub rounds: usize,
    pub group: &'static Group,
}

impl Run {
    /// A row of both sides; each closure gives the nanoseconds of one round.
    pub fn both(
        &self,
        name: &str,
        what: &str,
        mut ours: impl FnMut() -> f64,
        mut source: impl FnMut() -> f64,
    ) {
        let (mut a, mut b) = (Vec::new(), Vec::new());
        for _ in 0..self.rounds {
            a.push(ours());
            b.push(source());
        }
        self.print(name, what, Spread::of(a).median, Some(Spread::of(b).median));
    }

    /// A row of ours alone.
    pub fn alone(&self, name: &str, what: &str, mut ours: impl FnMut() -> f64) {
        let times = (0..self.rounds).map(|_| ours()).collect();
        self.print(name, what, Spread::of(times).median, None);
    }

    pub fn print(&self, name: &str, what: &str, ours: f64, source: Option<f64>) {
        let line = Line {
            group: self.group,
            name: name.to_string(),
            what: what.to_string(),
            ours,
            source,
        };
        println!("{line}");
    }
}

/// A row of both sides, each with a heap of its own. The heap is written once, over the name of the
/// side's type: `both!(run, name, what, S => heap::<S>(), work)`.
macro_rules! both {
    ($run:expr, $name:expr, $what:expr, $side:ident => $heap:expr, $work:expr) => {{
        let mut ours = {
            type $side = $crate::side::Ours;
            $heap
        };
        let mut source = {
            type $side = $crate::side::Source;
            $heap
        };
        $run.both($name, $what, || $work(&mut ours), || $work(&mut source));
    }};
}

pub(crate) use both;
