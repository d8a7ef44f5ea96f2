//! What the program steps_cycle of crates/ reads and prints, said by the source: the heap that its
//! heap.script makes, written out in words, and that heap driven through the same calls, with each
//! answer and state in the same words.

use crate::engine::Call;
use crate::names;
use heap::layout::{Layout, STRING};
use heap::programs::phase;
use heap::words::{Waiting, transcribed};
use oracle::{
    Answer, Command, Counters, Driver, Oracle, Phase, Refusal, Sizes, Snapshot, Step, UdRef, Value,
    WorkItem,
};
use std::cell::RefCell;
use std::collections::VecDeque;
use std::fmt::{Display, Write};
use std::rc::Rc;

const SCRIPT: &str = include_str!("../../../crates/steps_cycle/heap.script");

/// How each cycle is made, in this order. Before each but the first the main stack is popped.
const CYCLES: [Call; 7] = [
    Call::Single,
    Call::Single,
    Call::Budgeted(0),
    Call::Budgeted(1),
    Call::Budgeted(100),
    Call::Budgeted(1_000_000_000),
    Call::Full,
];

/// The userdata whose finalizer fails, and what is called while it is out.
const FAILS: UdRef = UdRef::new(6, 0);
const MEANWHILE: [Call; 4] = [
    Call::Single,
    Call::Automatic,
    Call::Check,
    Call::Finish(false),
];

/// The script's sizes and commands.
fn script() -> (Sizes, Vec<Command>) {
    let says = |line: &&str| !line.is_empty() && !line.starts_with('#');
    let mut lines = SCRIPT.lines().filter(says);
    let first = lines.next().expect("the sizes come first");
    let numbers = first.split(' ').skip(1);
    let sizes: Vec<u32> = numbers.map(|n| n.parse().expect("a number")).collect();
    let sizes = <[u32; 10]>::try_from(sizes).expect("ten sizes");
    let commands = lines.map(|line| Command::parse(line).expect("a command"));
    (Sizes::from(sizes), commands.collect())
}

/// The heap that the script makes; its further commands come from the driver.
fn made(driver: Rc<RefCell<dyn Driver>>) -> Oracle {
    let (sizes, commands) = script();
    let mut heap = Oracle::with_driver(sizes, driver).expect("sizes in range");
    for command in commands {
        let answer = heap.call(command);
        assert!(!matches!(answer, Answer::Refused(_)), "{answer}");
    }
    heap
}

/// Index and generation after the kind.
macro_rules! named {
    ($kind:literal, $r:expr) => {
        format!("{} {}.{}", $kind, $r.index, $r.generation)
    };
}

fn value(v: Value) -> String {
    match v {
        Value::Nil => "nil".into(),
        Value::Bool(_) => "a boolean".into(),
        Value::Light(_) => "a light userdata".into(),
        Value::Number(_) => "a number".into(),
        Value::Str(r) => named!("string", r),
        Value::Table(r) => named!("table", r),
        Value::Function(r) => named!("function", r),
        Value::Userdata(r) => named!("userdata", r),
        Value::Thread(r) => named!("thread", r),
    }
}

fn item(i: &WorkItem) -> String {
    match i {
        WorkItem::Table(r) => named!("table", r),
        WorkItem::Closure(r) => named!("function", r),
        WorkItem::Thread(r) => named!("thread", r),
        WorkItem::Main => "main".into(),
    }
}

fn call(call: Call) -> String {
    match call {
        Call::Single => "gc_singlestep".into(),
        Call::Budgeted(budget) => format!("gc_step {budget}"),
        Call::Automatic => "gc_step_auto".into(),
        Call::Check => "gc_check".into(),
        Call::Full => "full_gc".into(),
        Call::Finish(true) => "finish with success".into(),
        Call::Finish(false) => "finish with failure".into(),
    }
}

fn answer(answer: &Answer) -> String {
    match answer {
        Answer::Step(Step::Stepped(cost)) => format!("a step of cost {cost}"),
        Answer::Step(Step::Unfinished) => "unfinished".into(),
        Answer::Step(Step::Ended) => "the cycle ended".into(),
        Answer::Step(Step::Passed) => "passed".into(),
        Answer::Step(Step::Handed(d, method)) => {
            let userdata = value(Value::Userdata(*d));
            format!("{userdata} is handed out with {}", value(*method))
        }
        Answer::Step(Step::Busy) => "busy".into(),
        Answer::Step(Step::Failed) => "failed".into(),
        Answer::Refused(Refusal(n)) => format!("refused {n}"),
        other => panic!("no step answers {other}"),
    }
}

/// The arenas by the number that the cursor has for them.
const ARENAS: [&str; 5] = ["tables", "functions", "upvalues", "userdata", "threads"];

fn counters(c: &Counters) -> String {
    let (arena, slot) = c.cursor;
    let cursor = ARENAS[usize::from(arena)];
    format!(
        "{}, cursor at {cursor} {slot}, total {}, peak {}, estimate {}, threshold {}, debt {}",
        phase(c.phase),
        c.total,
        c.peak,
        c.estimate,
        c.threshold,
        c.debt
    )
}

fn list<T>(name: &str, items: &[T], show: impl Fn(&T) -> String) -> String {
    let shown: Vec<String> = items.iter().map(show).collect();
    if shown.is_empty() {
        return format!("{name}: none");
    }
    format!("{name}: {}", shown.join(", "))
}

fn lists(whole: &Snapshot) -> String {
    [
        list("gray", &whole.gray, item),
        list("grayagain", &whole.grayagain, item),
        list("weak", &whole.weak, |r| value(Value::Table(*r))),
        list("queue", &whole.queue, |r| value(Value::Userdata(*r))),
    ]
    .join("; ")
}

/// Makes the calls of each cycle, and writes what the program writes.
#[derive(Default)]
struct Cycles {
    /// Which cycle it is, from 0.
    cycle: usize,
    /// Its first call was made.
    begun: bool,
    /// What is still to be called while the finalizer that fails is out.
    meanwhile: VecDeque<Call>,
    /// What was asked last.
    asked: Option<Command>,
    text: String,
}

impl Cycles {
    /// A finalizer that is out is finished, else the cycle's call is made until it has ended.
    fn calls(&mut self, heap: &Oracle) -> Option<Command> {
        if let Some(call) = self.meanwhile.pop_front() {
            return Some(call.into());
        }
        match heap.out() {
            Some((FAILS, _)) => {
                self.meanwhile.extend(MEANWHILE);
                return self.calls(heap);
            }
            Some(_) => return Some(Call::Finish(true).into()),
            None => {}
        }
        if self.begun && heap.snapshot().counters.phase == Phase::Pause {
            self.cycle += 1;
            self.begun = false;
            return (self.cycle < CYCLES.len()).then_some(Command::Pop {});
        }
        self.begun = true;
        Some(CYCLES[self.cycle].into())
    }

    fn line(&mut self, text: impl Display) {
        _ = writeln!(self.text, "{text}");
    }
}

impl Driver for Cycles {
    fn next(&mut self, heap: &Oracle) -> Option<Command> {
        self.asked = self.calls(heap);
        self.asked.clone()
    }

    fn answer(&mut self, heap: &Oracle, given: &Answer) {
        let Some(asked) = self.asked.take() else {
            return;
        };
        if let Some(made) = Call::of(&asked) {
            let whole = heap.snapshot();
            self.line(format_args!("{}: {}", call(made), answer(given)));
            self.line(format_args!("  {}", counters(&whole.counters)));
            self.line(format_args!("  {}", lists(&whole)));
        } else if let Answer::Value(v) = given {
            self.line(format_args!("{} is popped", value(*v)));
        }
    }
}

/// What the program prints.
#[must_use]
pub fn printed() -> String {
    let cycles = Rc::new(RefCell::new(Cycles::default()));
    made(cycles.clone()).run();
    cycles.take().text
}

/// A name without its numbers.
fn kind(name: &str) -> String {
    name.chars().filter(|c| !c.is_ascii_digit()).collect()
}

/// What the program reads: a line for each word that is not 0, or for equal words side by side that
/// are of one kind; then a line for each string.
#[must_use]
pub fn read() -> String {
    let whole = made(Rc::new(RefCell::new(Cycles::default()))).snapshot();
    let heap = transcribed(&whole, Waiting::default());
    let layout = Layout::new(whole.sizes);
    let name = |place: usize| names::word(&layout, &heap.words, place);
    let mut text = String::from(
        "# The heap that heap.script makes, as README.md says: a place, how many words from there on,\n\
         # each of them this word, and what they are. All other words are 0. Then the strings' bytes.\n",
    );
    let mut place = 0;
    while place < layout.words {
        let word = heap.words[place];
        let first = name(place);
        let alike = |p: &usize| heap.words[*p] == word && kind(&name(*p)) == kind(&first);
        let times = (place..layout.words).take_while(alike).count();
        if word != 0 {
            _ = write!(text, "{place} {times} {word} {first}");
            if times > 1 {
                _ = write!(text, " to {}", name(place + times - 1));
            }
            text += "\n";
        }
        place += times;
    }
    for (i, slot) in whole.strings.list.iter().enumerate() {
        let bytes = slot.record.as_deref().unwrap_or_default();
        let shown = String::from_utf8_lossy(bytes);
        _ = writeln!(text, "text {} {shown}", i * STRING);
    }
    text
}
