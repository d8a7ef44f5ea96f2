//! Every step of whole cycles timed by itself: what the planner who gives the collector its time sees.

use crate::graph::{Graph, Kinds, State};
use crate::rows::budgeted::BUDGET;
use crate::run::Run;
use crate::side::{Ours, Side, Source};
use oracle::Phase;
use timing::timed;

const SLOTS: u32 = 4096;

/// Cycles of a run. A cycle makes the same steps each time; of each step the shortest time counts, so
/// that what the machine did meanwhile is left out.
const CYCLES: usize = 5;

/// The times of all steps of one cycle.
fn cycle<S: Side>(graph: &mut Graph<S>, step: fn(&mut S)) -> Vec<f64> {
    graph.renew();
    let side = &mut graph.side;
    let mut times = vec![timed(1, || step(side))];
    while !side.is_at(Phase::Pause) {
        times.push(timed(1, || step(side)));
    }
    times
}

/// The shortest time of each step, in rising order.
fn steps<S: Side>(state: State, step: fn(&mut S)) -> Vec<f64> {
    let mut graph = Graph::<S>::new(SLOTS, Kinds::All, state);
    let mut least = cycle(&mut graph, step);
    for _ in 1..CYCLES {
        let times = cycle(&mut graph, step);
        assert_eq!(times.len(), least.len(), "a cycle makes the same steps");
        least.iter_mut().zip(times).for_each(|(a, b)| *a = a.min(b));
    }
    least.sort_by(f64::total_cmp);
    least
}

/// The time that so many of a hundred steps do not pass.
fn percentile(sorted: &[f64], percent: usize) -> f64 {
    sorted[(sorted.len() - 1) * percent / 100]
}

fn single<S: Side>(side: &mut S) {
    side.single();
}

fn budgeted<S: Side>(side: &mut S) {
    side.budgeted(BUDGET);
}

fn printed(run: &Run, name: &str, ours: &[f64], source: &[f64]) {
    assert_eq!(ours.len(), source.len(), "both make the same steps");
    for (part, percent, what) in [
        ("p50", 50, "half of the steps take no longer"),
        ("p99", 99, "99 of 100 steps take no longer"),
        ("max", 100, "the longest step"),
    ] {
        let name = format!("{name}: {part}");
        let times = [ours, source].map(|times| percentile(times, percent));
        run.print(&name, what, times[0], Some(times[1]));
    }
}

pub fn rows(run: &Run) {
    for state in [State::Live, State::Half] {
        let name = format!("single step, {}", state.name());
        let (ours, source) = (steps(state, single::<Ours>), steps(state, single::<Source>));
        printed(run, &name, &ours, &source);
        let name = format!("budget 2,000, {}", state.name());
        let (ours, source) = (
            steps(state, budgeted::<Ours>),
            steps(state, budgeted::<Source>),
        );
        printed(run, &name, &ours, &source);
    }
}
