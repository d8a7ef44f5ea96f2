//! Generated scripts: no panic, the same twice, every command and refusal seen, and the facts
//! that hold of every heap.

mod common;

use common::{lines, replay};
use oracle::{Answer, Colour, Command, Phase, Refusal, Snapshot, Step, WORDS, generate};
use std::collections::{BTreeMap, BTreeSet};

fn total(whole: &Snapshot) -> u64 {
    u64::from(whole.strings.occupied) * 48
        + u64::from(whole.tables.occupied) * 64
        + u64::from(whole.closures.occupied) * 48
        + u64::from(whole.upvalues.occupied) * 24
        + u64::from(whole.userdata.occupied) * 48
        + u64::from(whole.threads.occupied) * 256
}

/// What document 01 says of every heap that the calls make.
fn holds_always(whole: &Snapshot) {
    assert_eq!(whole.counters.total, total(whole));
    assert!(whole.counters.peak >= whole.counters.total);
    let sizes = whole.sizes;
    assert!(whole.gray.len() as u32 <= sizes.tables + sizes.closures + sizes.threads + 1);
    assert!(whole.grayagain.len() as u32 <= sizes.tables + 2 * sizes.threads + 1);
    assert!(whole.weak.len() as u32 <= 2 * sizes.tables);
    assert!(whole.queue.len() as u32 <= sizes.userdata);
    assert_eq!(whole.main.stack.len() as u32, sizes.stack);
    assert_eq!(whole.main.frames.len() as u32, sizes.frames);
    assert_ne!(whole.strings.list[0].colour, Colour::Free);
    if whole.counters.phase == Phase::Pause {
        let white = whole.counters.white;
        let other = |colour: Colour| colour != Colour::Free && colour != white;
        assert!(!whole.tables.list.iter().any(|s| other(s.colour)));
        assert!(!whole.userdata.list.iter().any(|s| other(s.colour)));
        assert!(whole.queue.is_empty());
    }
}

/// While a finalizer is out these change nothing.
fn busy_changes_nothing(before: &Snapshot, after: &Snapshot, command: &Command) {
    if matches!(command, Command::GcStepAuto {}) {
        let counters = &before.counters;
        let grown = counters.total as i64 - counters.threshold as i64;
        assert_eq!(after.counters.debt, counters.debt + grown);
    } else {
        assert_eq!(before, after);
    }
}

#[test]
fn generated_scripts_run_and_keep_the_facts() {
    for seed in 0..300 {
        let sizes = generate::sizes(seed);
        let commands = generate::commands(seed, 300, sizes).expect("sizes in range");
        let seen = replay(sizes, commands.clone());
        assert!(seen.len() == 300 || seen.last().is_some_and(|(_, s)| s.out.is_some()));
        for ((answer, whole), command) in seen.iter().zip(&commands) {
            holds_always(whole);
            if let Answer::Refused(Refusal(n)) = answer {
                assert!([2, 3, 4, 5, 7].contains(n), "{command}: {answer}");
            }
        }
        for (pair, command) in seen.windows(2).zip(&commands[1..]) {
            match &pair[1].0 {
                Answer::Refused(Refusal(7)) => {}
                Answer::Refused(_) => assert_eq!(pair[0].1, pair[1].1, "{command}"),
                Answer::Step(Step::Busy) => {
                    busy_changes_nothing(&pair[0].1, &pair[1].1, command);
                }
                _ => {}
            }
        }
    }
}

/// The first word of a step's answer, the whole of a refusal.
fn kind(answer: &Answer) -> Option<String> {
    let text = answer.to_string();
    match answer {
        Answer::Step(_) => text.split(' ').next().map(str::to_owned),
        Answer::Refused(_) | Answer::Done => Some(text),
        _ => None,
    }
}

const KINDS: &[&str] = &[
    "stepped",
    "unfinished",
    "ended",
    "passed",
    "handed",
    "busy",
    "failed",
    "done",
    "refused 2",
    "refused 3",
    "refused 4",
    "refused 5",
    "refused 7",
];

#[test]
fn every_command_and_answer_is_seen() {
    let mut words = BTreeSet::new();
    let mut kinds: BTreeMap<String, u32> = BTreeMap::new();
    let mut weak = 0;
    for seed in 0..200 {
        let sizes = generate::sizes(seed);
        let commands = generate::commands(seed, 300, sizes).expect("sizes in range");
        words.extend(commands.iter().map(Command::word));
        for (answer, whole) in replay(sizes, commands) {
            if let Some(kind) = kind(&answer) {
                *kinds.entry(kind).or_default() += 1;
            }
            weak += usize::from(!whole.weak.is_empty());
        }
    }
    let missing: Vec<_> = WORDS.iter().filter(|(w, _)| !words.contains(w)).collect();
    assert!(missing.is_empty(), "never generated: {missing:?}");
    println!("{kinds:?} weak {weak}");
    for wanted in KINDS {
        let count = kinds.get(*wanted).copied().unwrap_or(0);
        assert!(count >= 20, "{wanted}: {count} times only");
    }
    assert!(weak >= 100, "weak tables listed {weak} times only");
}

#[test]
fn the_same_script_gives_the_same_answers() {
    for seed in 1000..1020 {
        let sizes = generate::sizes(seed);
        let first = generate::script(seed, 300, sizes).expect("sizes in range");
        let second = generate::script(seed, 300, sizes).expect("sizes in range");
        assert_eq!(first, second);
        assert_eq!(lines(&first), lines(&second));
    }
}

#[test]
fn a_script_written_and_read_is_the_same() {
    for seed in 2000..2040 {
        let sizes = generate::sizes(seed);
        for command in generate::commands(seed, 200, sizes).expect("sizes in range") {
            assert_eq!(Command::parse(&command.to_string()), Ok(command));
        }
    }
}
