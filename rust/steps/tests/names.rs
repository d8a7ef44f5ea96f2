//! Every word has a name of its own, and those of the header are the ones that the program
//! layout_print prints.

use heap::layout::{Layout, header};
use heap::words::{Waiting, transcribed};
use oracle::generate::{self, Generator};
use oracle::{Answer, Command, Driver, Oracle, Sizes};
use std::cell::RefCell;
use std::collections::HashSet;
use std::rc::Rc;
use steps::names;

const PRINTED: &str = include_str!("../../../crates/layout_print/stdout");

#[test]
fn the_header() {
    let layout = Layout::new(Sizes::default());
    let groups = ["the ten sizes", "nine type metatables"];
    let mut seen = 0;
    for line in PRINTED.lines().take_while(|l| !l.contains("heap")) {
        let Some((place, name)) = line
            .strip_prefix("  word ")
            .and_then(|rest| rest.split_once(": "))
        else {
            continue;
        };
        let place = place.parse().expect("a number");
        let ours = names::word(&layout, &[], place);
        seen += 1;
        match name.strip_suffix(": head, fresh, count") {
            Some(arena) => assert_eq!(ours, format!("head of {arena}")),
            None if groups.contains(&name) => {}
            None => assert!(ours.starts_with(name), "{place}: {ours}"),
        }
    }
    assert_eq!(seen, 39);
    assert_eq!(names::word(&layout, &[], 0), "slots of strings");
    assert_eq!(names::word(&layout, &[], 28), "type metatable 0 index + 1");
    assert_eq!(names::word(&layout, &[], 45), "type metatable 8 generation");
    assert_eq!(names::word(&layout, &[], 90), "count of threads");
}

/// A generator, and the words of its heap after the last command.
struct Last(Generator, Vec<u32>);

impl Driver for Last {
    fn next(&mut self, heap: &Oracle) -> Option<Command> {
        self.0.next(heap)
    }

    fn answer(&mut self, heap: &Oracle, answer: &Answer) {
        self.0.answer(heap, answer);
        self.1 = transcribed(&heap.snapshot(), Waiting::default()).words;
    }
}

#[test]
fn every_word_has_a_name_of_its_own() {
    for seed in 0..40 {
        let sizes = generate::sizes(seed);
        if sizes == Sizes::default() {
            continue;
        }
        let last = Rc::new(RefCell::new(Last(Generator::new(seed, 200), Vec::new())));
        Oracle::with_driver(sizes, last.clone())
            .expect("sizes in range")
            .run();
        let (layout, words) = (Layout::new(sizes), &last.borrow().1);
        assert_eq!(words.len(), layout.words);
        let mut seen = HashSet::new();
        for place in 0..layout.words {
            let name = names::word(&layout, words, place);
            assert!(!name.contains("past the heap"), "{place}: {name}");
            let written = words[place] != 0;
            assert!(!written || !name.contains("past its record"), "{name}");
            assert!(seen.insert(name), "{place}");
        }
        let past = names::word(&layout, words, layout.words);
        assert_eq!(past, format!("word {}, past the heap", layout.words));
    }
}

#[test]
fn odd_words_have_names_too() {
    let sizes = Sizes::from([2, 2, 1, 1, 1, 1, 1, 1, 1, 1]);
    let layout = Layout::new(sizes);
    let odd = vec![u32::MAX; layout.words];
    for place in 0..layout.words + 2 {
        assert!(!names::word(&layout, &odd, place).is_empty());
    }
    let colour = layout.arenas[1].base + 1;
    assert_eq!(names::word(&layout, &odd, colour), "colour of table 1");
    let item = layout.lists[0].base + 7;
    assert_eq!(names::word(&layout, &odd, item), "gray item 2 index");
    assert_eq!(names::word(&layout, &odd, header::ESTIMATE), "estimate");
    assert_eq!(names::byte(&layout, 70), "byte 6 of string 1");
    assert_eq!(names::byte(&layout, 128), "byte 128, past the heap");
}
