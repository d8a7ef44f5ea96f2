//! Reads of the header, the main record, the lists and the slots: a question by its number (one past the
//! list is 4), an index that only some look at (outside its range 4).

use crate::arena::KINDS;
use crate::buffers::{Buffers, Heap, Told, halves, unless};
use crate::lists::Item;
use crate::value::{Handle, Value};
use heap::ask::List;
use heap::layout::{HANDLE, VALUE, header};
use proved::Refused;

/// What a read tells: its kind, then its words.
pub(crate) type Answer = [u32; 4];

pub(crate) fn number(n: u64) -> Answer {
    let [low, high] = halves(n);
    [0, low, high, 0]
}

pub(crate) fn value(v: Value) -> Answer {
    [1, v.tag, v.low, v.high]
}

/// A handle that may be missing, of the kind of answer given.
fn optional(kind: u32, handle: Option<Handle>) -> Answer {
    handle.map_or([kind, 0, 0, 0], |(index, generation)| {
        [kind, 1, index, generation]
    })
}

pub(crate) fn table(handle: Option<Handle>) -> Answer {
    optional(2, handle)
}

fn string(handle: Option<Handle>) -> Answer {
    optional(3, handle)
}

pub(crate) fn upvalue((index, generation): Handle) -> Answer {
    [4, index, generation, 0]
}

fn item(item: Item) -> Answer {
    let [kind, index, generation] = item.words();
    [5, kind, index, generation]
}

/// An index below an end, else 4.
pub(crate) fn below(index: u32, end: usize) -> Told<usize> {
    let index = index as usize;
    unless(index < end, 4)?;
    Ok(index)
}

/// A question by its number, else 4.
fn asked<T: Copy>(questions: &[T], question: u32) -> Told<T> {
    questions.get(question as usize).copied().ok_or(Refused(4))
}

/// The counters of one word, and those of two, by their places.
#[derive(Clone, Copy)]
enum Counter {
    Word(usize),
    Long(usize),
}

const COUNTERS: [Counter; 16] = [
    Counter::Word(header::PROTOTYPES),
    Counter::Long(header::LIMIT),
    Counter::Word(header::PAUSE),
    Counter::Word(header::STEPMUL),
    Counter::Long(header::CREATION),
    Counter::Word(header::PHASE),
    Counter::Word(header::WHITE),
    Counter::Word(header::CURSOR),
    Counter::Word(header::CURSOR + 1),
    Counter::Word(header::TOTAL),
    Counter::Word(header::PEAK),
    Counter::Word(header::ESTIMATE),
    Counter::Long(header::THRESHOLD),
    Counter::Long(header::DEBT),
    Counter::Word(header::INTERRUPTED),
    Counter::Long(header::REMAINING),
];

const LISTS: [List; 4] = [List::Gray, List::Grayagain, List::Weak, List::Queue];

impl Heap<'_> {
    pub fn word(&self, place: usize) -> Answer {
        number(self.words[place].into())
    }

    fn read_counter(&self, counter: u32) -> Told<Answer> {
        Ok(match asked(&COUNTERS, counter)? {
            Counter::Word(place) => self.word(place),
            Counter::Long(place) => number(self.long(place)),
        })
    }

    fn read_root(&self, root: u32, index: u32) -> Told<Answer> {
        Ok(match root {
            0 => table(self.optional(header::GLOBAL)),
            1 => table(self.optional(header::REGISTRY)),
            2 => string(self.optional(header::NAME_MODE)),
            3 => string(self.optional(header::NAME_GC)),
            4 => table(self.optional(header::METATABLES + 2 * below(index, 9)?)),
            _ => return Err(Refused(4)),
        })
    }

    fn read_main(&self, field: u32, index: u32) -> Told<Answer> {
        let open = self.words[header::OPENS] as usize;
        Ok(match field {
            0 => self.word(header::TOP),
            1 => self.word(header::OPENS),
            2 => self.word(header::CI),
            3 => value(self.value(header::ERROR)),
            4 => value(self.value(header::HOOK)),
            5 => {
                let i = below(index, self.stack_places())?;
                value(self.value(self.layout.stack + VALUE * i))
            }
            6 => upvalue(self.handle(self.layout.opens + HANDLE * below(index, open)?)),
            7 => self.word(self.layout.frames + below(index, self.frames())?),
            _ => return Err(Refused(4)),
        })
    }

    fn read_list(&self, list: u32, field: u32, index: u32) -> Told<Answer> {
        let list = asked(&LISTS, list)?;
        Ok(match field {
            0 => number(self.length(list) as u64),
            1 => item(self.item(list, below(index, self.length(list))?)),
            _ => return Err(Refused(4)),
        })
    }

    /// Of a slot below the fresh index: generation, colour, link.
    fn read_arena(&self, kind: u32, field: u32, index: u32) -> Told<Answer> {
        let kind = asked(&KINDS, kind)?;
        let slot = || below(index, self.fresh(kind) as usize);
        let n = match field {
            0..=2 => self.words[self.arena(kind).top + field as usize],
            3 => self.generation(kind, slot()?),
            4 => self.colour(kind, slot()?),
            5 => self.link(kind, slot()?),
            _ => return Err(Refused(4)),
        };
        Ok(number(n.into()))
    }
}

impl Buffers<'_> {
    pub fn read_counter(&mut self, counter: u32, out: &mut [u32]) -> u32 {
        self.tell(out, |h| h.read_counter(counter))
    }

    pub fn read_size(&mut self, size: u32, out: &mut [u32]) -> u32 {
        self.tell(out, |h| Ok(h.word(below(size, 10)?)))
    }

    pub fn read_out(&mut self, out: &mut [u32]) -> u32 {
        self.tell(out, |h| Ok(optional(6, h.optional(header::OUT))))
    }

    pub fn read_root(&mut self, root: u32, index: u32, out: &mut [u32]) -> u32 {
        self.tell(out, |h| h.read_root(root, index))
    }

    pub fn read_main(&mut self, field: u32, index: u32, out: &mut [u32]) -> u32 {
        self.tell(out, |h| h.read_main(field, index))
    }

    pub fn read_list(&mut self, list: u32, field: u32, index: u32, out: &mut [u32]) -> u32 {
        self.tell(out, |h| h.read_list(list, field, index))
    }

    pub fn read_arena(&mut self, kind: u32, field: u32, index: u32, out: &mut [u32]) -> u32 {
        self.tell(out, |h| h.read_arena(kind, field, index))
    }
}
