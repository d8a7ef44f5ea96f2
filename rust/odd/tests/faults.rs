//! What the comparison is for: a wrong answer, a wrong word and a slow call are found, and told by little
//! more than what matters.

use collector::engine;
use heap::layout::header;
use heap::sizes::SMALLEST;
use heap::{Words, needed};
use odd::finding::Finding;
use odd::judge::Judge;
use odd::rows::{Given, Row};
use odd::tally::Kind;
use std::thread::sleep;
use std::time::Duration;

/// Reads an unknown colour of the first string as black.
static UNKNOWN_COLOUR: Row = Row {
    name: "set_ci",
    takes: &[],
    tells: 0,
    ours: |h, _, _| {
        let (w, b) = h.lent();
        engine::set_ci(w, b, 0)
    },
    second: |h, _, _| {
        let code = h.set_ci(0);
        if h.words[header::WORDS] > 4 {
            h.words[header::WORDS] = 4;
        }
        code
    },
};

static WRONG_ANSWER: Row = Row {
    name: "pop",
    takes: &[],
    tells: 3,
    ours: |h, _, out| {
        let (w, b) = h.lent();
        engine::pop(w, b, out)
    },
    second: |_, _, _| 0,
};

/// On a heap of few words.
static SLOW: Row = Row {
    name: "set_ci",
    takes: &[],
    tells: 0,
    ours: |h, _, _| {
        sleep(Duration::from_millis(2));
        let (w, b) = h.lent();
        engine::set_ci(w, b, 0)
    },
    second: |h, _, _| h.set_ci(0),
};

fn new_heap() -> Words {
    let (words, bytes) = needed(&SMALLEST).expect("sizes in range");
    let mut heap = Words {
        words: vec![7; words],
        bytes: vec![7; bytes],
    };
    heap.make_heap(&SMALLEST).expect("room");
    heap
}

fn found(row: &'static Row, mut heap: Words) -> Finding {
    let given = Given {
        lent: row.tells,
        ..Given::default()
    };
    let found = Judge::new(true).give(Kind::Damaged, row, given, &mut heap);
    *found.expect_err("it is found")
}

#[test]
fn a_wrong_word_is_found_and_made_small() {
    let mut heap = new_heap();
    heap.words[header::WORDS] = 9;
    for place in [header::PEAK, header::ESTIMATE, header::DEBT, 200, 300] {
        heap.words[place] = 12_345;
    }
    heap.bytes[100] = 1;
    let finding = found(&UNKNOWN_COLOUR, heap);
    assert!(matches!(finding, Finding::Differs(_)));
    let text = finding.to_string();
    assert!(text.contains("word 91 = 9"), "{text}");
    assert!(text.contains("ours 9, the second reading 4"), "{text}");
    assert!(
        !text.contains("12345") && !text.contains("byte 100"),
        "{text}"
    );
}

#[test]
fn a_wrong_answer_is_found() {
    let text = found(&WRONG_ANSWER, new_heap()).to_string();
    assert!(
        text.contains("code: 5") && text.contains("code: 0"),
        "{text}"
    );
}

#[test]
fn a_slow_call_is_found() {
    let finding = found(&SLOW, new_heap());
    assert!(matches!(finding, Finding::Slow(..)));
}
