//! The comparison tried on a second oracle in place of the engine: where nothing differs, nothing
//! is found, and every phase, call and answer is seen.

use oracle::{Command, Sizes};
use steps::engine::{Call, Engine, KINDS};
use steps::heaps::{self, sizes};
use steps::shrink::{replayed, shrunk};
use steps::{StandIn, linked};

fn stand_in(sizes: Sizes) -> Box<dyn Engine> {
    Box::new(StandIn::new(sizes))
}

#[test]
fn a_second_oracle_makes_the_same_steps() {
    let (heaps, tally) = heaps::compared(1000, 6000, &stand_in).expect("no difference");
    println!("{heaps} heaps\n{tally}");
    assert_eq!(tally.total(), 6000);
    for (phase, counts) in tally.steps.iter().enumerate() {
        for (call, n) in Call::NAMES.iter().zip(counts).take(5) {
            assert!(*n >= 5, "phase {phase}, {call}: {n} times only");
        }
    }
    let finished = tally.steps.iter().map(|counts| counts[5]).sum::<u64>();
    assert!(finished >= 200, "finish: {finished} times only");
    for answer in KINDS.iter().chain(&["refused 5", "refused 7"]) {
        let n = tally.answered(answer);
        assert!(n >= 20, "{answer}: {n} times only");
    }
}

#[test]
fn the_engine_that_is_linked() {
    let Some(_) = linked() else {
        // Nothing to compare yet; the stand-in is tried above.
        return;
    };
    let engine = |_| linked().expect("linked");
    let compared = heaps::compared(1, 10_000, &engine);
    if let Err(report) = compared {
        panic!("{report}");
    }
}

#[test]
fn sizes_are_small_and_large() {
    let all: Vec<Sizes> = (0..400).map(sizes).collect();
    let share = |fit: fn(&Sizes) -> bool| all.iter().filter(|s| fit(s)).count();
    assert!(share(|s| s.tables < 42) >= 100);
    assert!(share(|s| (80..1000).contains(&s.tables)) >= 200);
    assert!(share(|s| s.tables > 1000) >= 4);
    assert!(share(|s| s.strings > 1000) >= 4);
}

#[test]
fn where_nothing_differs_nothing_is_shrunk() {
    let script = vec![
        Command::MakeTable { array: 1, nodes: 1 },
        Command::FullGc {},
        Command::Finish { ok: true },
    ];
    let sizes = Sizes::default();
    let run = replayed(sizes, script.clone(), &stand_in);
    assert_eq!(run.script, script);
    assert_eq!(run.tally.total(), 2);
    assert_eq!(run.difference, None);
    assert_eq!(shrunk(sizes, script, &stand_in), None);
}

#[test]
fn words_of_another_heap_are_refused_by_the_stand_in() {
    // An engine for other sizes than the heap's.
    let other = |_| stand_in(Sizes::from([3, 3, 0, 0, 0, 0, 0, 0, 0, 1]));
    let sizes = Sizes::from([2, 2, 0, 0, 0, 0, 0, 0, 0, 1]);
    let run = replayed(sizes, vec![Command::FullGc {}], &other);
    let difference = run.difference.expect("refused");
    assert_eq!(difference.found[0].what, "answer");
    assert_eq!(difference.found[0].ours, "refused 1");
}
