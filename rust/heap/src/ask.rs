//! The reads by name: questions in the order of their numbers, answers as plain types.

use crate::ours::Words;
use oracle::{FuncRef, StrRef, TableRef, ThreadRef, UdRef, UpvalRef, Value};
use proved::Refused;

/// A counter, setting or mark of the header.
#[derive(Clone, Copy, Debug)]
pub enum Counter {
    Prototypes,
    Limit,
    Pause,
    Stepmul,
    Creation,
    Phase,
    White,
    CursorArena,
    CursorSlot,
    Total,
    Peak,
    Estimate,
    Threshold,
    /// Stored plus 2^63.
    Debt,
    Interrupted,
    Remaining,
}

/// One of the ten sizes.
#[derive(Clone, Copy, Debug)]
pub enum Size {
    Strings,
    Tables,
    Functions,
    Upvalues,
    Userdata,
    Threads,
    Prototypes,
    Stack,
    Opens,
    Frames,
}

/// A root that is a handle; `Type` has the index of a type.
#[derive(Clone, Copy, Debug)]
pub enum Root {
    Global,
    Registry,
    Mode,
    Gc,
    Type,
}

/// A field of the main record; the last three have a place.
#[derive(Clone, Copy, Debug)]
pub enum Main {
    Top,
    Opens,
    Ci,
    Error,
    Hook,
    Stack,
    Open,
    Frame,
}

/// A working list.
#[derive(Clone, Copy, Debug)]
pub enum List {
    Gray,
    Grayagain,
    Weak,
    Queue,
}

/// The length of a list, or an item.
#[derive(Clone, Copy, Debug)]
pub enum Listed {
    Length,
    At,
}

/// An arena.
#[derive(Clone, Copy, Debug)]
pub enum Kind {
    Strings,
    Tables,
    Functions,
    Upvalues,
    Userdata,
    Threads,
}

/// What an arena keeps beside its bodies; the last three are of a slot.
#[derive(Clone, Copy, Debug)]
pub enum Slot {
    Head,
    Fresh,
    Count,
    Generation,
    Colour,
    Link,
}

/// A field of a string; a byte has its place.
#[derive(Clone, Copy, Debug)]
pub enum Text {
    Length,
    Byte,
}

/// A field of a table; the last three have a place.
#[derive(Clone, Copy, Debug)]
pub enum Table {
    Meta,
    Array,
    Nodes,
    At,
    Key,
    Val,
}

/// A field of a closure; the last two have a place.
#[derive(Clone, Copy, Debug)]
pub enum Closure {
    Rust,
    Env,
    Proto,
    Count,
    Upvalue,
    Value,
}

/// A field of an upvalue.
#[derive(Clone, Copy, Debug)]
pub enum Upvalue {
    Closed,
    Value,
}

/// A field of a userdata.
#[derive(Clone, Copy, Debug)]
pub enum Userdata {
    Meta,
    Env,
    Creation,
    Finalized,
}

/// A field of a thread; the last three have a place.
#[derive(Clone, Copy, Debug)]
pub enum Thread {
    Global,
    Hook,
    Error,
    Size,
    Top,
    Opens,
    Suspendeds,
    Open,
    Suspended,
    Stack,
}

/// A field of a prototype; the last two have a place.
#[derive(Clone, Copy, Debug)]
pub enum Proto {
    Constants,
    Nested,
    Parent,
    Constant,
    Child,
}

/// Any handle: index and generation.
pub type Handle = (u32, u32);

/// What an item of a list names.
#[derive(Clone, Copy, Debug, PartialEq, Eq)]
pub enum Item {
    Table(TableRef),
    Function(FuncRef),
    Userdata(UdRef),
    Thread(ThreadRef),
    Main,
    Unknown,
}

/// What a read answers.
#[derive(Clone, Copy, Debug, PartialEq, Eq)]
pub enum Answer {
    Number(u64),
    Value(Value),
    Table(Option<TableRef>),
    Str(Option<StrRef>),
    Upvalue(UpvalRef),
    Item(Item),
    Userdata(Option<UdRef>),
    /// Words that no read gives.
    Odd([u32; 4]),
}

/// 64 bits from the low word and the high one.
#[must_use]
pub fn joined(low: u32, high: u32) -> u64 {
    u64::from(low) | u64::from(high) << 32
}

/// The value that three words answer; none if no call answers them.
#[must_use]
pub fn value(tag: u32, low: u32, high: u32) -> Option<Value> {
    Some(match (tag, low, high) {
        (0, 0, 0) => Value::Nil,
        (1, 0, 0) => Value::Bool(false),
        (1, 1, 0) => Value::Bool(true),
        (2, ..) => Value::Light(joined(low, high)),
        (3, ..) => Value::Number(joined(low, high)),
        (4, ..) => Value::Str(StrRef::new(low, high)),
        (5, ..) => Value::Table(TableRef::new(low, high)),
        (6, ..) => Value::Function(FuncRef::new(low, high)),
        (7, ..) => Value::Userdata(UdRef::new(low, high)),
        (8, ..) => Value::Thread(ThreadRef::new(low, high)),
        _ => return None,
    })
}

fn item(kind: u32, index: u32, generation: u32) -> Option<Item> {
    Some(match (kind, index, generation) {
        (5, ..) => Item::Table(TableRef::new(index, generation)),
        (6, ..) => Item::Function(FuncRef::new(index, generation)),
        (7, ..) => Item::Userdata(UdRef::new(index, generation)),
        (8, ..) => Item::Thread(ThreadRef::new(index, generation)),
        (9, 0, 0) => Item::Main,
        (0, 0, 0) => Item::Unknown,
        _ => return None,
    })
}

impl From<[u32; 4]> for Answer {
    fn from(words: [u32; 4]) -> Self {
        let known = match words {
            [0, low, high, 0] => Some(Self::Number(joined(low, high))),
            [1, tag, low, high] => value(tag, low, high).map(Self::Value),
            [2, 0, 0, 0] => Some(Self::Table(None)),
            [2, 1, index, generation] => Some(Self::Table(Some(TableRef::new(index, generation)))),
            [3, 0, 0, 0] => Some(Self::Str(None)),
            [3, 1, index, generation] => Some(Self::Str(Some(StrRef::new(index, generation)))),
            [4, index, generation, 0] => Some(Self::Upvalue(UpvalRef::new(index, generation))),
            [5, kind, index, generation] => item(kind, index, generation).map(Self::Item),
            [6, 0, 0, 0] => Some(Self::Userdata(None)),
            [6, 1, index, generation] => Some(Self::Userdata(Some(UdRef::new(index, generation)))),
            _ => None,
        };
        known.unwrap_or(Self::Odd(words))
    }
}

/// An answer, or a refusal.
pub type Asked = Result<Answer, Refused>;

/// The words before the read are odd, so that one left as it was is seen.
fn asked(read: impl FnOnce(&mut [u32]) -> Result<(), Refused>) -> Asked {
    let mut out = [0x5a5a_5a5a; 4];
    read(&mut out)?;
    Ok(Answer::from(out))
}

/// The reads by name. A place that a question has no use for is not looked at.
///
/// # Errors
/// Refusals 1 and 8 of the buffers, 2 for a stale handle, 4 for a place outside its range.
impl Words {
    pub fn counter(&self, counter: Counter) -> Asked {
        asked(|out| self.read_counter(counter as u32, out))
    }

    pub fn size(&self, size: Size) -> Asked {
        asked(|out| self.read_size(size as u32, out))
    }

    /// The userdata whose finalizer is out.
    pub fn out(&self) -> Asked {
        asked(|out| self.read_out(out))
    }

    pub fn root(&self, root: Root, index: u32) -> Asked {
        asked(|out| self.read_root(root as u32, index, out))
    }

    pub fn main(&self, field: Main, index: u32) -> Asked {
        asked(|out| self.read_main(field as u32, index, out))
    }

    pub fn list(&self, list: List, field: Listed, index: u32) -> Asked {
        asked(|out| self.read_list(list as u32, field as u32, index, out))
    }

    pub fn arena(&self, kind: Kind, field: Slot, index: u32) -> Asked {
        asked(|out| self.read_arena(kind as u32, field as u32, index, out))
    }

    pub fn string(&self, (index, generation): Handle, field: Text, at: u32) -> Asked {
        asked(|out| self.read_string(index, generation, field as u32, at, out))
    }

    pub fn table(&self, (index, generation): Handle, field: Table, at: u32) -> Asked {
        asked(|out| self.read_table(index, generation, field as u32, at, out))
    }

    pub fn closure(&self, (index, generation): Handle, field: Closure, at: u32) -> Asked {
        asked(|out| self.read_closure(index, generation, field as u32, at, out))
    }

    pub fn upvalue(&self, (index, generation): Handle, field: Upvalue) -> Asked {
        asked(|out| self.read_upvalue(index, generation, field as u32, out))
    }

    pub fn userdata(&self, (index, generation): Handle, field: Userdata) -> Asked {
        asked(|out| self.read_userdata(index, generation, field as u32, out))
    }

    pub fn thread(&self, (index, generation): Handle, field: Thread, at: u32) -> Asked {
        asked(|out| self.read_thread(index, generation, field as u32, at, out))
    }

    pub fn proto(&self, number: u32, field: Proto, at: u32) -> Asked {
        asked(|out| self.read_proto(number, field as u32, at, out))
    }
}
