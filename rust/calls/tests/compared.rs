//! A short fixed set of the comparison; any number of calls by `compare_calls`.

use calls::compare::{How, Run, replayed, run};
use calls::heaps::{Which, chosen, compared};
use heap::Words;
use heap::layout::header;
use oracle::generate::{Generator, commands};
use oracle::{Command, Sizes, WORDS};

#[test]
fn every_call_is_the_sources() {
    let found = compared(Which::Any, 1, 60_000, How::default());
    let (heaps, tally) = found.unwrap_or_else(|report| panic!("{report}"));
    println!("{heaps} heaps\n{tally}");
    for (word, _) in WORDS {
        let n = tally.given(word);
        assert!(n >= 50, "{word}: {n} times only");
    }
    let seen = [
        ("make_table", "refused 3"),
        ("make_proto", "refused 4"),
        ("make_lua_closure", "refused 2"),
        ("upvalue_close", "refused 5"),
        ("gc_check", "refused 7"),
        ("full_gc", "handed"),
        ("gc_step", "busy"),
        ("finish", "failed"),
        ("audit", "yes"),
        ("audit", "no"),
    ];
    for (word, answer) in seen {
        let n = tally.answered(word, answer);
        assert!(n >= 10, "{word}: {answer} {n} times only");
    }
}

fn no_difference(run: Run) {
    assert_eq!(run.difference, None);
}

#[test]
fn at_the_ends_of_the_sizes() {
    let all = [
        [2, 2, 0, 0, 0, 0, 0, 0, 0, 1],
        [4096, 2, 0, 0, 0, 0, 0, 256, 64, 32],
        [2, 4096, 0, 0, 0, 0, 0, 256, 64, 32],
        [2, 2, 4096, 0, 0, 0, 256, 256, 64, 32],
        [2, 2, 0, 4096, 0, 0, 0, 256, 64, 32],
        [2, 2, 0, 0, 4096, 0, 0, 256, 64, 32],
        [2, 2, 0, 0, 0, 4096, 0, 256, 64, 32],
        [4096, 4096, 4096, 4096, 4096, 4096, 256, 256, 64, 32],
    ];
    for (seed, sizes) in all.into_iter().enumerate() {
        let slots: u32 = sizes[..6].iter().sum();
        let lines = if slots > 5000 { 40 } else { 200 };
        let commands = Box::new(Generator::new(seed as u64, lines));
        no_difference(run(Sizes::from(sizes), commands, How::default()));
    }
}

#[test]
fn arenas_longer_than_a_sweep_step() {
    let found = compared(Which::Long, 1, 3000, How::default());
    let (heaps, _) = found.unwrap_or_else(|report| panic!("{report}"));
    assert_eq!(heaps, 3);
}

#[test]
fn sizes_are_small_mostly() {
    let all: Vec<Sizes> = (0..4000)
        .map(|seed| chosen(Which::Any, seed).sizes)
        .collect();
    let share = |fit: fn(&Sizes) -> bool| all.iter().filter(|s| fit(s)).count();
    assert!(share(|s| s.tables < 42) >= 3800);
    assert!(share(|s| s.tables == 2 && s.strings == 2) >= 50);
    assert!(share(|s| s.tables == 200) >= 20);
    assert!(share(|s| s.userdata == 0) >= 100);
    assert!(share(|s| s.upvalues > 80) >= 50);
    assert!(share(|s| s.strings > 1000 || s.tables > 1000) >= 2);
}

/// A call that does what it should and one thing more.
fn one_word_more(heap: &mut Words, command: &Command) {
    if matches!(command, Command::SetTop { .. }) {
        heap.words[header::PEAK] += 1;
    }
}

fn past_its_record(heap: &mut Words, command: &Command) {
    if matches!(command, Command::TableSetMeta { .. }) {
        *heap.bytes.last_mut().expect("bytes") = 0;
    }
}

fn a_byte(heap: &mut Words, command: &Command) {
    if matches!(command, Command::Pop {}) {
        heap.bytes[64] ^= 1;
    }
}

#[test]
fn what_differs_is_found_and_shrunk() {
    let spoiled = [
        (one_word_more as fn(&mut Words, &Command), "peak", "set_top"),
        (past_its_record, "a byte past the heap", "table_set_meta"),
        (a_byte, "byte 0 of string 1", "pop"),
    ];
    for (spoil, what, word) in spoiled {
        let how = How {
            spoil: Some(spoil),
            ..How::default()
        };
        let report = compared(Which::Any, 7, 5000, how).expect_err("a difference");
        assert_eq!(report.difference.command.word(), word);
        assert_eq!(report.difference.found[0].what, what);
        let shrunk = report.shrunk.expect("it shows again");
        assert_eq!(shrunk.script.len(), 1, "{shrunk}");
        assert_eq!(shrunk.script[0].word(), word);
    }
}

#[test]
fn a_list_of_commands() {
    let sizes = Sizes::from([4, 4, 2, 2, 2, 1, 2, 4, 2, 1]);
    let script = commands(3, 200, sizes).expect("sizes in range");
    let run = replayed(sizes, script.clone(), How::default());
    assert_eq!(run.tally.total(), script.len() as u64);
    no_difference(run);
}
