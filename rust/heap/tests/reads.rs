//! The exported reads: heaps that scripts make in the source, written out at our places and read
//! back; and what each read refuses, in document 01's order.

mod common;

use common::tried;
use heap::layout::header;
use heap::sizes::SMALLEST;
use heap::words::{Waiting, transcribed};
use heap::{Refused, Words, compared_reads, needed};
use oracle::generate::{self, Generator};
use oracle::{Answer, Command, Driver, Oracle, Snapshot, Step};
use std::cell::RefCell;
use std::rc::Rc;

/// The source's heap after a script of so many lines.
fn scripted(seed: u64, lines: u64) -> Snapshot {
    let driver = Rc::new(RefCell::new(Generator::new(seed, lines)));
    let mut heap = Oracle::with_driver(generate::sizes(seed), driver).expect("sizes in range");
    heap.run();
    heap.snapshot()
}

#[test]
fn heaps_of_scripts_are_read_back() {
    let mut seen = [0; 9];
    for seed in 0..200 {
        let (source, none) = (scripted(seed, 400), Waiting::default());
        let heap = transcribed(&source, none);
        assert_eq!(compared_reads(&heap, &source, none), Ok(()), "seed {seed}");
        let counts = [
            source.strings.occupied as usize,
            source.tables.occupied as usize,
            source.closures.occupied as usize,
            source.upvalues.occupied as usize,
            source.userdata.occupied as usize,
            source.threads.occupied as usize,
            source.prototypes.len(),
            source.gray.len() + source.grayagain.len() + source.weak.len() + source.queue.len(),
            source.tables.chain.len(),
        ];
        for (all, one) in seen.iter_mut().zip(counts) {
            *all += one;
        }
    }
    assert!(seen.iter().all(|n| *n > 100), "{seen:?}");
}

/// Commands, with the heap read back each time a finalizer is handed out.
struct Watched {
    commands: Generator,
    seed: u64,
    seen: u32,
}

impl Watched {
    fn read_back(&self, source: &Snapshot) {
        let waiting = Waiting {
            interrupted: 1 + self.seen % 5,
            remaining: self.seed << 32 | u64::from(self.seen),
        };
        let mut heap = transcribed(source, waiting);
        let same = compared_reads(&heap, source, waiting);
        assert_eq!(same, Ok(()), "seed {}, finalizer {}", self.seed, self.seen);
        // Its index and its generation are looked at.
        for place in [header::OUT, header::OUT + 1] {
            heap.words[place] ^= 1;
            let same = compared_reads(&heap, source, waiting);
            assert!(same.is_err(), "seed {}, word {place}", self.seed);
            heap.words[place] ^= 1;
        }
    }
}

impl Driver for Watched {
    fn next(&mut self, heap: &Oracle) -> Option<Command> {
        self.commands.next(heap)
    }

    fn answer(&mut self, heap: &Oracle, answer: &Answer) {
        if let Answer::Step(Step::Handed(userdata, method)) = answer {
            let source = heap.snapshot();
            assert_eq!(source.out, Some((*userdata, *method)));
            self.read_back(&source);
            self.seen += 1;
        }
        self.commands.answer(heap, answer);
    }
}

#[test]
fn a_finalizer_that_is_out_is_read() {
    let mut seen = 0;
    for seed in 0..60 {
        let watched = Rc::new(RefCell::new(Watched {
            commands: Generator::new(seed, 400),
            seed,
            seen: 0,
        }));
        let driver: Rc<RefCell<dyn Driver>> = watched.clone();
        let heap = Oracle::with_driver(generate::sizes(seed), driver);
        heap.expect("sizes in range").run();
        seen += watched.borrow().seen;
    }
    assert!(seen > 100, "{seen}");
}

/// The smallest heap, which has no closure, upvalue, userdata, thread or prototype.
fn smallest() -> Words {
    let (words, bytes) = needed(&SMALLEST).expect("sizes in range");
    let mut heap = Words {
        words: vec![0; words],
        bytes: vec![0; bytes],
    };
    heap.make_heap(&SMALLEST).expect("room");
    heap
}

#[test]
fn a_number_that_asks_nothing_is_4() {
    let (heap, mut out) = (smallest(), [7; 4]);
    let unknown = |heap| tried(heap, 4).into_iter().filter(|q| !q.known);
    assert!(unknown(&heap).all(|q| q.is_refused(4)));
    // It comes before 2: no closure is there.
    assert_eq!(heap.read_closure(0, 0, 5, 0, &mut out), Err(Refused(2)));
    assert_eq!(heap.read_closure(0, 0, 6, 0, &mut out), Err(Refused(4)));
    // 2 comes before a place outside its range.
    assert_eq!(heap.read_table(0, 1, 3, 99, &mut out), Err(Refused(2)));
    assert_eq!(heap.read_table(0, 0, 3, 99, &mut out), Err(Refused(4)));
}

#[test]
fn a_damaged_heap_is_8_and_a_bad_one_1_before_all_else() {
    let refused = |heap: &Words, number| tried(heap, 4).iter().all(|q| q.is_refused(number));
    let mut heap = smallest();
    heap.words[52] = 1;
    assert!(refused(&heap, 8));
    heap.words[53] = 5;
    assert!(refused(&heap, 1));
    heap.words.fill(0);
    assert!(refused(&heap, 1));
    heap.words.clear();
    assert!(refused(&heap, 1));
}

#[test]
fn an_answer_takes_four_words() {
    let mut heap = smallest();
    for question in tried(&heap, 6) {
        assert_eq!(question.answer.is_ok(), question.out[..4] != [7; 4]);
        assert_eq!(question.out[4..], [7; 2]);
    }
    for room in 0..4 {
        assert!(tried(&heap, room).iter().all(|q| q.is_refused(1)));
    }
    // It is refused before the damage mark.
    heap.words[52] = 1;
    assert!(tried(&heap, 3).iter().all(|q| q.is_refused(1)));
}
