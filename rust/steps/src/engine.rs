//! The six calls that make steps, whoever answers them.

use heap::Words;
use heap::words::value;
use oracle::{Answer, Command, Refusal, Step};

/// The words of an answer.
pub const OUT: usize = 6;

/// What the comparison lends for an answer: words that no answer has.
pub(crate) const LENT: [u32; OUT] = [0xa5a5_a5a5; OUT];

/// The steps over two lent buffers, as the engine exports them. A call gives 0 and tells its answer
/// in `out`: the kind (see [`KINDS`]), then for `stepped` the cost, for `handed` index and
/// generation of the userdata and the method's three words; the rest is 0. Or it gives the number
/// of a refusal and leaves `out` as it was.
pub trait Engine {
    fn gc_singlestep(&mut self, w: &mut [u32], b: &mut [u8], out: &mut [u32]) -> u32;
    fn gc_step(&mut self, w: &mut [u32], b: &mut [u8], budget: i64, out: &mut [u32]) -> u32;
    fn gc_step_auto(&mut self, w: &mut [u32], b: &mut [u8], out: &mut [u32]) -> u32;
    fn gc_check(&mut self, w: &mut [u32], b: &mut [u8], out: &mut [u32]) -> u32;
    fn full_gc(&mut self, w: &mut [u32], b: &mut [u8], out: &mut [u32]) -> u32;
    fn finish(&mut self, w: &mut [u32], b: &mut [u8], ok: u32, out: &mut [u32]) -> u32;

    /// A command that is no step was given. Only an engine that keeps a heap of its own looks.
    fn follow(&mut self, _command: &Command) {}
}

/// The kinds of answers, by their numbers.
pub const KINDS: [&str; 7] = [
    "stepped",
    "unfinished",
    "ended",
    "passed",
    "handed",
    "busy",
    "failed",
];

/// One of the six calls with its argument.
#[derive(Clone, Copy, Debug, PartialEq, Eq)]
pub enum Call {
    Single,
    Budgeted(i64),
    Automatic,
    Check,
    Full,
    Finish(bool),
}

impl Call {
    pub const NAMES: [&str; 6] = ["single", "budgeted", "automatic", "check", "full", "finish"];

    /// The step that a command makes, if it is one.
    #[must_use]
    pub fn of(command: &Command) -> Option<Self> {
        match command {
            Command::GcSinglestep {} => Some(Self::Single),
            Command::GcStep { budget } => Some(Self::Budgeted(*budget)),
            Command::GcStepAuto {} => Some(Self::Automatic),
            Command::GcCheck {} => Some(Self::Check),
            Command::FullGc {} => Some(Self::Full),
            Command::Finish { ok } => Some(Self::Finish(*ok)),
            _ => None,
        }
    }

    /// Its place in [`Call::NAMES`].
    #[must_use]
    pub fn place(self) -> usize {
        match self {
            Self::Single => 0,
            Self::Budgeted(_) => 1,
            Self::Automatic => 2,
            Self::Check => 3,
            Self::Full => 4,
            Self::Finish(_) => 5,
        }
    }

    /// Makes the call on a heap.
    pub fn make(self, engine: &mut dyn Engine, heap: &mut Words, out: &mut [u32]) -> u32 {
        let (w, b) = (&mut heap.words[..], &mut heap.bytes[..]);
        match self {
            Self::Single => engine.gc_singlestep(w, b, out),
            Self::Budgeted(budget) => engine.gc_step(w, b, budget, out),
            Self::Automatic => engine.gc_step_auto(w, b, out),
            Self::Check => engine.gc_check(w, b, out),
            Self::Full => engine.full_gc(w, b, out),
            Self::Finish(ok) => engine.finish(w, b, ok.into(), out),
        }
    }
}

impl From<Call> for Command {
    fn from(call: Call) -> Self {
        match call {
            Call::Single => Self::GcSinglestep {},
            Call::Budgeted(budget) => Self::GcStep { budget },
            Call::Automatic => Self::GcStepAuto {},
            Call::Check => Self::GcCheck {},
            Call::Full => Self::FullGc {},
            Call::Finish(ok) => Self::Finish { ok },
        }
    }
}

/// An answer as a call gives it: 0 and six words, or a refusal.
#[derive(Clone, Copy, Debug, PartialEq, Eq)]
pub struct Told {
    pub code: u32,
    pub out: [u32; OUT],
}

impl Told {
    /// What a call tells that answers as the oracle did, whose lent words were `before`.
    ///
    /// # Panics
    /// If the answer is not that of a step.
    #[must_use]
    pub fn of(answer: &Answer, before: [u32; OUT]) -> Self {
        let (code, out) = match answer {
            Answer::Refused(Refusal(n)) => (u32::from(*n), before),
            Answer::Step(step) => (0, step_words(*step)),
            other => panic!("no step answers {other}"),
        };
        Self { code, out }
    }
}

fn step_words(step: Step) -> [u32; OUT] {
    match step {
        Step::Stepped(cost) => [0, u32::try_from(cost).expect("a cost fits"), 0, 0, 0, 0],
        Step::Unfinished => [1, 0, 0, 0, 0, 0],
        Step::Ended => [2, 0, 0, 0, 0, 0],
        Step::Passed => [3, 0, 0, 0, 0, 0],
        Step::Handed(d, method) => {
            let [tag, low, high] = value(method);
            [4, d.index, d.generation, tag, low, high]
        }
        Step::Busy => [5, 0, 0, 0, 0, 0],
        Step::Failed => [6, 0, 0, 0, 0, 0],
        Step::Refused(refusal) => panic!("{refusal} is no answer of six words"),
    }
}

impl std::fmt::Display for Told {
    fn fmt(&self, f: &mut std::fmt::Formatter<'_>) -> std::fmt::Result {
        match KINDS.get(self.out[0] as usize) {
            _ if self.code != 0 && self.out == LENT => write!(f, "refused {}", self.code),
            _ if self.code != 0 => write!(f, "refused {} with words {:?}", self.code, self.out),
            Some(kind) => write!(f, "{kind} {:?}", &self.out[1..]),
            None => write!(f, "kind {} {:?}", self.out[0], &self.out[1..]),
        }
    }
}
