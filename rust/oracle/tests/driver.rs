//! A runner of its own around the generator, as a comparison with an engine would be built.

mod common;

use oracle::generate::{self, Generator};
use oracle::{Answer, Command, Driver, Oracle};
use std::cell::RefCell;
use std::fmt::Write;
use std::rc::Rc;

/// Keeps what it was asked and answered; an engine would be called in `answer`.
struct Runner {
    generator: Generator,
    script: String,
    answers: String,
}

impl Driver for Runner {
    fn next(&mut self, heap: &Oracle) -> Option<Command> {
        let command = self.generator.next(heap)?;
        writeln!(self.script, "{command}").expect("memory has no trouble");
        Some(command)
    }

    fn answer(&mut self, heap: &Oracle, answer: &Answer) {
        writeln!(self.answers, "{answer}").expect("memory has no trouble");
        self.generator.answer(heap, answer);
    }
}

#[test]
fn a_runner_sees_what_a_script_prints() {
    for seed in 300..330 {
        let sizes = generate::sizes(seed);
        let numbers = <[u32; 10]>::from(sizes).map(|n| n.to_string()).join(" ");
        let runner = Rc::new(RefCell::new(Runner {
            generator: Generator::new(seed, 300),
            script: format!("sizes {numbers}\n"),
            answers: "done\n".to_owned(),
        }));
        let driver: Rc<RefCell<dyn Driver>> = runner.clone();
        Oracle::with_driver(sizes, driver)
            .expect("sizes in range")
            .run();
        let runner = runner.borrow();
        let printed = oracle::script::answers(&runner.script).expect("no trouble");
        assert_eq!(printed, runner.answers);
    }
}

#[test]
fn without_a_driver_finalizers_succeed_at_once() {
    let mut heap = common::heap();
    let meta = heap.make_table(0, 1).expect("room");
    let gc = heap.make_string(b"__gc".to_vec()).expect("found");
    let (key, method) = (oracle::Value::Str(gc), oracle::Value::Bool(true));
    heap.table_set_node(meta, 0, key, method).expect("in range");
    let lost = heap.make_userdata().expect("room");
    heap.ud_set_meta(lost, Some(meta)).expect("named");
    assert_eq!(heap.full_gc(), oracle::Step::Ended);
    assert!(heap.is_named(lost.into()));
    assert_eq!(heap.full_gc(), oracle::Step::Ended);
    assert!(!heap.is_named(lost.into()));
}
