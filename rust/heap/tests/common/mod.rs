//! What the tests share.

use heap::{Refused, Words};

/// A read whose question is a number, and how many questions it has.
type Read = (fn(&Words, u32, &mut [u32]) -> Result<(), Refused>, u32);

const READS: [Read; 15] = [
    (|h, n, out| h.read_counter(n, out), 16),
    (|h, n, out| h.read_size(n, out), 10),
    (|h, n, out| h.read_root(n, 0, out), 5),
    (|h, n, out| h.read_main(n, 0, out), 8),
    (|h, n, out| h.read_list(n, 0, 0, out), 4),
    (|h, n, out| h.read_list(0, n, 0, out), 2),
    (|h, n, out| h.read_arena(n, 0, 0, out), 6),
    (|h, n, out| h.read_arena(0, n, 0, out), 6),
    (|h, n, out| h.read_string(0, 0, n, 0, out), 2),
    (|h, n, out| h.read_table(0, 0, n, 0, out), 6),
    (|h, n, out| h.read_closure(0, 0, n, 0, out), 6),
    (|h, n, out| h.read_upvalue(0, 0, n, out), 2),
    (|h, n, out| h.read_userdata(0, 0, n, out), 4),
    (|h, n, out| h.read_thread(0, 0, n, 0, out), 10),
    (|h, n, out| h.read_proto(0, n, 0, out), 5),
];

/// A question: whether its number is one that asks something, the answer, and its words after it.
#[allow(dead_code, reason = "each test file reads a part of it")]
pub struct Tried {
    pub known: bool,
    pub answer: Result<(), Refused>,
    pub out: Vec<u32>,
}

impl Tried {
    pub fn is_refused(&self, number: u32) -> bool {
        self.answer == Err(Refused(number))
    }
}

/// What is asked with so many words for the answer, all 7; a refusal has to leave them alone.
fn question(
    known: bool,
    room: usize,
    ask: impl FnOnce(&mut [u32]) -> Result<(), Refused>,
) -> Tried {
    let mut out = vec![7; room];
    let answer = ask(&mut out);
    assert!(answer.is_ok() || out == vec![7; room]);
    Tried { known, answer, out }
}

/// Every known question of every read, and some unknown ones; that of the finalizer that is out has
/// no number.
pub fn tried(heap: &Words, room: usize) -> Vec<Tried> {
    let mut all = vec![question(true, room, |out| heap.read_out(out))];
    for (read, count) in READS {
        for n in (0..count + 3).chain([u32::MAX]) {
            all.push(question(n < count, room, |out| read(heap, n, out)));
        }
    }
    all
}
