//! Faults put in on purpose: each is found, named and shrunk.

mod common;

use common::{Fault, Faulty};
use heap::layout::{Layout, header};
use oracle::{Command, Sizes};
use steps::engine::Call;
use steps::heaps::{self, Report};
use steps::shrink::{Shrunk, replayed};

/// The report of a fault on the heaps of this seed and the next ones.
fn reported(seed: u64, fault: Fault) -> Report {
    let found = heaps::compared(seed, 20_000, &Faulty::maker(fault));
    *found.expect_err("the fault is seen")
}

/// The fault is found under this name, and shrunk: then it is still there, and no command can be
/// left out.
fn found(seed: u64, fault: Fault, name: &str) -> Shrunk {
    let report = reported(seed, fault);
    println!("{report}");
    assert_eq!(report.difference.found[0].what, name);
    let shrunk = report.shrunk.expect("it shows again");
    assert_eq!(shrunk.difference.kind(), report.difference.kind());
    let again = replayed(shrunk.sizes, shrunk.script.clone(), &Faulty::maker(fault));
    assert_eq!(again.difference.as_ref(), Some(&shrunk.difference));
    for i in 0..shrunk.script.len() {
        let mut fewer = shrunk.script.clone();
        fewer.remove(i);
        let run = replayed(shrunk.sizes, fewer, &Faulty::maker(fault));
        let kind = run.difference.map(|d| d.kind());
        assert_ne!(kind, Some(shrunk.difference.kind()), "without command {i}");
    }
    shrunk
}

/// The layout of the heap in these words.
fn layout(w: &[u32]) -> Layout {
    Layout::new(Sizes::from(std::array::from_fn::<u32, 10, _>(|k| w[k])))
}

/// Whether a command of this kind is in the script.
fn has(shrunk: &Shrunk, word: &str) -> bool {
    shrunk.script.iter().any(|command| command.word() == word)
}

#[test]
fn an_estimate_one_too_high() {
    let fault: Fault = |_, w, _, _| {
        if w[header::PHASE] == 2 {
            w[header::ESTIMATE] += 1;
        }
    };
    let shrunk = found(1, fault, "estimate");
    // Five single steps do it: roots, main thread, two tables, the atomic step.
    assert!(shrunk.script.len() <= 5);
    let [found] = &shrunk.difference.found[..] else {
        panic!("one word differs");
    };
    assert_eq!((found.ours.as_str(), found.source.as_str()), ("225", "224"));
    assert_eq!(shrunk.difference.places, 1);
}

#[test]
fn a_colour_that_stays() {
    let fault: Fault = |_, w, _, _| {
        let colour = layout(w).arenas[1].base + 1;
        if w[header::PHASE] == 1 && w[colour] == 4 {
            w[colour] = 3;
        }
    };
    let shrunk = found(3, fault, "colour of table 1");
    assert!(shrunk.script.len() <= 3);
}

#[test]
fn two_gray_items_exchanged() {
    let fault: Fault = |_, w, _, _| {
        let gray = layout(w).lists[0];
        if w[gray.count] > 3 {
            w.swap(gray.base + 7, gray.base + 10);
        }
    };
    let shrunk = found(5, fault, "gray item 2 index");
    // A fourth item is a thing reached, or a metatable of a type.
    assert!(shrunk.script.len() <= 5);
}

#[test]
fn a_freed_slot_that_is_not_linked() {
    let fault: Fault = |_, w, _, _| {
        let tables = layout(w).arenas[1];
        for i in 0..tables.slots {
            if w[tables.base + i] == 0 {
                w[tables.base + 2 * tables.slots + i] = 0;
            }
        }
    };
    let shrunk = reported(7, fault).shrunk.expect("it shows again");
    assert!(shrunk.difference.kind().starts_with("link of table "));
    // Two tables, freed.
    assert!(has(&shrunk, "make_table") && shrunk.script.len() <= 8);
}

#[test]
fn a_byte_that_stays() {
    let fault: Fault = |call, _, b, _| {
        if call == Call::Full {
            b[127] = 7;
        }
    };
    let shrunk = found(9, fault, "byte 63 of string 1");
    assert_eq!(shrunk.script, [Command::FullGc {}]);
}

#[test]
fn a_cost_of_801() {
    let fault: Fault = |_, _, _, told| {
        if told.code == 0 && told.out[..2] == [0, 800] {
            told.out[1] = 801;
        }
    };
    let shrunk = found(11, fault, "answer");
    let found = &shrunk.difference.found[0];
    assert_eq!(found.ours, "stepped [801, 0, 0, 0, 0]");
    assert_eq!(found.source, "stepped [800, 0, 0, 0, 0]");
}

#[test]
fn another_refusal() {
    let fault: Fault = |_, _, _, told| {
        if told.code == 5 {
            told.code = 4;
        }
    };
    let shrunk = found(13, fault, "answer");
    assert_eq!(shrunk.script.len(), 1);
}

#[test]
fn a_refusal_that_tells_words() {
    let fault: Fault = |_, _, _, told| {
        if told.code == 7 {
            told.out = [0; 6];
        }
    };
    let shrunk = found(15, fault, "answer");
    assert!(has(&shrunk, "set_limit") && has(&shrunk, "gc_check"));
}

const INTERRUPTED: &str = "what the finalizer that is out interrupted";

/// Whether a finalizer is out.
fn out(w: &[u32]) -> bool {
    w[header::OUT] != 0
}

#[test]
fn nothing_interrupted() {
    let fault: Fault = |_, w, _, _| w[header::INTERRUPTED] = 0;
    let shrunk = found(17, fault, INTERRUPTED);
    assert!(has(&shrunk, "make_userdata") && has(&shrunk, "ud_set_meta"));
}

#[test]
fn another_userdata_out() {
    let fault: Fault = |_, w, _, _| {
        if out(w) {
            w[header::OUT + 1] += 1;
        }
    };
    found(19, fault, "userdata that is out generation");
}

#[test]
fn a_remaining_budget_that_another_call_changes() {
    let fault: Fault = |_, w, _, told| {
        if told.code == 0 && told.out[0] == 5 {
            w[header::REMAINING + 1] ^= 1;
        }
    };
    let shrunk = found(21, fault, "remaining budget high");
    let last = shrunk.script.last().expect("a step");
    assert!(matches!(Call::of(last), Some(call) if call != Call::Finish(true)));
}

#[test]
fn a_remaining_budget_that_stays() {
    let fault: Fault = |_, w, _, _| {
        if !out(w) {
            w[header::REMAINING] = 1;
        }
    };
    let shrunk = found(23, fault, "remaining budget low");
    assert_eq!(shrunk.script.len(), 1);
}

/// Words of a finalizer that is out cannot be seen in the oracle: wrong ones are carried along and
/// show when they matter.
#[test]
fn a_remaining_budget_that_is_wrong_from_the_start() {
    let fault: Fault = |_, w, _, told| {
        if told.code == 0 && told.out[0] == 4 {
            w[header::REMAINING] ^= 1;
        }
    };
    let shrunk = found(25, fault, "answer");
    assert!(shrunk.difference.found[0].ours.starts_with("refused 1"));
}
