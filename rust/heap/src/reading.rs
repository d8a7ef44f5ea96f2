//! A heap of ours read into a snapshot by the exported reads alone. Every part is read to its end,
//! and the place after it must be refused with 4; every slot is read by its handle, and the handles
//! of the same slot with another generation, and of the slot after the last, must be refused with 2.

use crate::ask::{
    Answer, Asked, Closure, Counter, Handle, Item, Kind, List, Listed, Main, Proto, Root, Size,
    Slot, Table, Text, Thread, Upvalue, Userdata,
};
use crate::ours::Words;
use crate::words::Waiting;
use oracle::{
    ClosureRecord, Colour, Counters, MainRecord, Phase, ProtoRecord, Sizes, Slots, Snapshot,
    StrRef, TableRecord, TableRef, ThreadRecord, UdRef, UpvalRecord, UpvalRef, UserdataRecord,
    Value, WorkItem,
};
use proved::Refused;

/// What a read of one kind held.
macro_rules! held {
    ($name:ident, $kind:ident, $type:ty) => {
        fn $name(asked: Asked) -> Result<$type, String> {
            match asked {
                Ok(Answer::$kind(held)) => Ok(held),
                other => Err(format!("asked for a {}: {other:?}", stringify!($name))),
            }
        }
    };
}

held!(number, Number, u64);
held!(value, Value, Value);
held!(table, Table, Option<TableRef>);
held!(name, Str, Option<StrRef>);
held!(upvalue, Upvalue, UpvalRef);
held!(item, Item, Item);
held!(userdata, Userdata, Option<UdRef>);

fn small(asked: Asked) -> Result<u32, String> {
    let n = number(asked)?;
    u32::try_from(n).map_err(|_| format!("{n} in one word"))
}

fn length(asked: Asked) -> Result<usize, String> {
    Ok(small(asked)? as usize)
}

fn flag(asked: Asked) -> Result<bool, String> {
    match number(asked)? {
        0 => Ok(false),
        1 => Ok(true),
        n => Err(format!("flag {n}")),
    }
}

fn byte(asked: Asked) -> Result<u8, String> {
    let n = number(asked)?;
    u8::try_from(n).map_err(|_| format!("byte {n}"))
}

fn root(asked: Asked) -> Result<TableRef, String> {
    table(asked)?.ok_or("no such root".into())
}

fn colour(asked: Asked) -> Result<Colour, String> {
    let colours = [
        Colour::Free,
        Colour::White0,
        Colour::White1,
        Colour::Gray,
        Colour::Black,
    ];
    let n = length(asked)?;
    colours.get(n).copied().ok_or(format!("colour {n}"))
}

fn phase(asked: Asked) -> Result<Phase, String> {
    let phases = [
        Phase::Pause,
        Phase::Propagate,
        Phase::SweepString,
        Phase::Sweep,
        Phase::Finalize,
    ];
    let n = length(asked)?;
    phases.get(n).copied().ok_or(format!("phase {n}"))
}

fn work_item(asked: Asked) -> Result<WorkItem, String> {
    match item(asked)? {
        Item::Table(r) => Ok(WorkItem::Table(r)),
        Item::Function(r) => Ok(WorkItem::Closure(r)),
        Item::Thread(r) => Ok(WorkItem::Thread(r)),
        Item::Main => Ok(WorkItem::Main),
        other => Err(format!("gray {other:?}")),
    }
}

fn weak_item(asked: Asked) -> Result<TableRef, String> {
    match item(asked)? {
        Item::Table(r) => Ok(r),
        other => Err(format!("weak {other:?}")),
    }
}

fn queue_item(asked: Asked) -> Result<UdRef, String> {
    match item(asked)? {
        Item::Userdata(r) => Ok(r),
        other => Err(format!("queue {other:?}")),
    }
}

fn refused(asked: Asked, number: u32, what: &str) -> Result<(), String> {
    if asked == Err(Refused(number)) {
        Ok(())
    } else {
        Err(format!("{what}, not refused with {number}: {asked:?}"))
    }
}

/// All that is asked from place 0 on, to the end.
fn each<T>(
    count: u32,
    ask: impl Fn(u32) -> Asked,
    taken: impl Fn(Asked) -> Result<T, String>,
) -> Result<Vec<T>, String> {
    refused(ask(count), 4, "the end")?;
    refused(ask(u32::MAX), 4, "the last index")?;
    (0..count).map(|i| taken(ask(i))).collect()
}

struct Reading<'a>(&'a Words);

impl Reading<'_> {
    fn counters(&self) -> Result<Counters, String> {
        let ask = |counter| self.0.counter(counter);
        let cursor = small(ask(Counter::CursorArena))?;
        Ok(Counters {
            phase: phase(ask(Counter::Phase))?,
            white: colour(ask(Counter::White))?,
            cursor: (
                u8::try_from(cursor).map_err(|_| format!("cursor arena {cursor}"))?,
                small(ask(Counter::CursorSlot))?,
            ),
            total: number(ask(Counter::Total))?,
            peak: number(ask(Counter::Peak))?,
            limit: Some(number(ask(Counter::Limit))?).filter(|n| *n != u64::MAX),
            estimate: number(ask(Counter::Estimate))?,
            threshold: number(ask(Counter::Threshold))?,
            // Stored plus 2^63.
            debt: (number(ask(Counter::Debt))? ^ 1 << 63) as i64,
            number: number(ask(Counter::Creation))?,
            pause: small(ask(Counter::Pause))?,
            stepmul: small(ask(Counter::Stepmul))?,
        })
    }

    fn main(&self, sizes: Sizes) -> Result<MainRecord, String> {
        let ask = |field| self.0.main(field, 0);
        let places = |field| move |i| self.0.main(field, i);
        let types = each(9, |k| self.0.root(Root::Type, k), table)?;
        Ok(MainRecord {
            top: length(ask(Main::Top))?,
            stack: each(sizes.stack, places(Main::Stack), value)?,
            open: each(small(ask(Main::Opens))?, places(Main::Open), upvalue)?,
            ci: length(ask(Main::Ci))?,
            frames: each(sizes.frames, places(Main::Frame), length)?,
            error: value(ask(Main::Error))?,
            hook: value(ask(Main::Hook))?,
            global: root(self.0.root(Root::Global, 0))?,
            registry: root(self.0.root(Root::Registry, 0))?,
            type_metatables: types,
        })
    }

    /// The two names, which the source keeps beside its heap.
    fn names(&self) -> Result<(), String> {
        let mode = name(self.0.root(Root::Mode, 0))?;
        let gc = name(self.0.root(Root::Gc, 0))?;
        if (mode, gc) == (Some(StrRef::new(0, 0)), Some(StrRef::new(1, 0))) {
            Ok(())
        } else {
            Err(format!("names {mode:?} and {gc:?}"))
        }
    }

    fn waiting(&self) -> Result<Waiting, String> {
        Ok(Waiting {
            interrupted: small(self.0.counter(Counter::Interrupted))?,
            remaining: number(self.0.counter(Counter::Remaining))?,
        })
    }

    fn sizes(&self) -> Result<Sizes, String> {
        let ask = |size| small(self.0.size(size));
        Ok(Sizes {
            strings: ask(Size::Strings)?,
            tables: ask(Size::Tables)?,
            closures: ask(Size::Functions)?,
            upvalues: ask(Size::Upvalues)?,
            userdata: ask(Size::Userdata)?,
            threads: ask(Size::Threads)?,
            prototypes: ask(Size::Prototypes)?,
            stack: ask(Size::Stack)?,
            open: ask(Size::Opens)?,
            frames: ask(Size::Frames)?,
        })
    }

    fn list<T>(
        &self,
        list: List,
        taken: impl Fn(Asked) -> Result<T, String>,
    ) -> Result<Vec<T>, String> {
        let count = small(self.0.list(list, Listed::Length, 0))?;
        each(count, |i| self.0.list(list, Listed::At, i), taken)
    }

    /// An arena: `field` asks for a field of the object that a handle names, `record` for all.
    fn slots<R>(
        &self,
        kind: Kind,
        field: impl Fn(Handle) -> Asked,
        record: impl Fn(Handle) -> Result<R, String>,
    ) -> Result<Slots<R>, String> {
        let ask = |field| self.0.arena(kind, field, 0);
        let places = |field| move |i| self.0.arena(kind, field, i);
        let fresh = small(ask(Slot::Fresh))?;
        let generations = each(fresh, places(Slot::Generation), small)?;
        let colours = each(fresh, places(Slot::Colour), colour)?;
        let links = each(fresh, places(Slot::Link), small)?;
        let mut list = Vec::new();
        for (i, (generation, colour)) in generations.into_iter().zip(colours).enumerate() {
            let index = i as u32;
            let other = (index, generation.wrapping_add(1));
            refused(field(other), 2, "another generation")?;
            let record = if colour == Colour::Free {
                refused(field((index, generation)), 2, "a free slot")?;
                None
            } else {
                Some(record((index, generation))?)
            };
            list.push(oracle::Slot {
                generation,
                colour,
                record,
            });
        }
        refused(field((fresh, 0)), 2, "a slot from the fresh index on")?;
        let next = |at: &u32| links.get(*at as usize).and_then(|x| x.checked_sub(1));
        let head = small(ask(Slot::Head))?.checked_sub(1);
        Ok(Slots {
            list,
            occupied: small(ask(Slot::Count))?,
            chain: std::iter::successors(head, next)
                .take(links.len() + 1)
                .collect(),
        })
    }

    fn string(&self, at: Handle) -> Result<Vec<u8>, String> {
        let count = small(self.0.string(at, Text::Length, 0))?;
        each(count, |i| self.0.string(at, Text::Byte, i), byte)
    }

    fn table(&self, at: Handle) -> Result<TableRecord, String> {
        let ask = |field| self.0.table(at, field, 0);
        let places = |field| move |i| self.0.table(at, field, i);
        let nodes = small(ask(Table::Nodes))?;
        let keys = each(nodes, places(Table::Key), value)?;
        let values = each(nodes, places(Table::Val), value)?;
        Ok(TableRecord {
            metatable: table(ask(Table::Meta))?,
            array: each(small(ask(Table::Array))?, places(Table::At), value)?,
            nodes: keys.into_iter().zip(values).collect(),
        })
    }

    fn closure(&self, at: Handle) -> Result<ClosureRecord, String> {
        let ask = |field| self.0.closure(at, field, 0);
        let places = |field| move |i| self.0.closure(at, field, i);
        let count = small(ask(Closure::Count))?;
        let env = table(ask(Closure::Env))?;
        if flag(ask(Closure::Rust))? {
            refused(ask(Closure::Upvalue), 4, "an upvalue of a Rust closure")?;
            let values = each(count, places(Closure::Value), value)?;
            return Ok(ClosureRecord::Rust { env, values });
        }
        refused(ask(Closure::Value), 4, "a value of a Lua closure")?;
        Ok(ClosureRecord::Lua {
            proto: small(ask(Closure::Proto))?,
            env: env.ok_or("a Lua closure with no env")?,
            upvalues: each(count, places(Closure::Upvalue), upvalue)?,
        })
    }

    fn upvalue(&self, at: Handle) -> Result<UpvalRecord, String> {
        let value = value(self.0.upvalue(at, Upvalue::Value))?;
        match (flag(self.0.upvalue(at, Upvalue::Closed))?, value) {
            (true, value) => Ok(UpvalRecord::Closed(value)),
            (false, Value::Nil) => Ok(UpvalRecord::Open),
            (false, value) => Err(format!("an open upvalue with {value}")),
        }
    }

    fn userdata(&self, at: Handle) -> Result<UserdataRecord, String> {
        let ask = |field| self.0.userdata(at, field);
        Ok(UserdataRecord {
            metatable: table(ask(Userdata::Meta))?,
            env: table(ask(Userdata::Env))?,
            number: number(ask(Userdata::Creation))?,
            finalized: flag(ask(Userdata::Finalized))?,
        })
    }

    fn thread(&self, at: Handle) -> Result<ThreadRecord, String> {
        let ask = |field| self.0.thread(at, field, 0);
        let places = |field| move |i| self.0.thread(at, field, i);
        let (opens, suspendeds) = (ask(Thread::Opens), ask(Thread::Suspendeds));
        Ok(ThreadRecord {
            global: root(ask(Thread::Global))?,
            hook: value(ask(Thread::Hook))?,
            error: value(ask(Thread::Error))?,
            top: length(ask(Thread::Top))?,
            stack: each(small(ask(Thread::Size))?, places(Thread::Stack), value)?,
            open: each(small(opens)?, places(Thread::Open), upvalue)?,
            suspended: each(small(suspendeds)?, places(Thread::Suspended), upvalue)?,
        })
    }

    fn prototypes(&self) -> Result<Vec<ProtoRecord>, String> {
        let count = small(self.0.counter(Counter::Prototypes))?;
        let end = self.0.proto(count, Proto::Constants, 0);
        refused(end, 4, "a prototype from the used ones on")?;
        (0..count).map(|n| self.proto(n)).collect()
    }

    fn proto(&self, n: u32) -> Result<ProtoRecord, String> {
        let ask = |field| self.0.proto(n, field, 0);
        let places = |field| move |i| self.0.proto(n, field, i);
        Ok(ProtoRecord {
            constants: each(
                small(ask(Proto::Constants))?,
                places(Proto::Constant),
                value,
            )?,
            nested: each(small(ask(Proto::Nested))?, places(Proto::Child), small)?,
            has_parent: small(ask(Proto::Parent))? != 0,
        })
    }
}

/// A heap read whole. The method of a finalizer that is out was handed out with its userdata, and no
/// heap of ours keeps it: nil stands for it.
///
/// # Errors
/// The first read that answers what it should not, in words.
pub fn read(heap: &Words) -> Result<(Snapshot, Waiting), String> {
    let all = Reading(heap);
    all.names()?;
    let sizes = all.sizes()?;
    let whole = Snapshot {
        sizes,
        strings: all.slots(
            Kind::Strings,
            |at| heap.string(at, Text::Length, 0),
            |at| all.string(at),
        )?,
        tables: all.slots(
            Kind::Tables,
            |at| heap.table(at, Table::Array, 0),
            |at| all.table(at),
        )?,
        closures: all.slots(
            Kind::Functions,
            |at| heap.closure(at, Closure::Count, 0),
            |at| all.closure(at),
        )?,
        upvalues: all.slots(
            Kind::Upvalues,
            |at| heap.upvalue(at, Upvalue::Closed),
            |at| all.upvalue(at),
        )?,
        userdata: all.slots(
            Kind::Userdata,
            |at| heap.userdata(at, Userdata::Meta),
            |at| all.userdata(at),
        )?,
        threads: all.slots(
            Kind::Threads,
            |at| heap.thread(at, Thread::Size, 0),
            |at| all.thread(at),
        )?,
        prototypes: all.prototypes()?,
        gray: all.list(List::Gray, work_item)?,
        grayagain: all.list(List::Grayagain, work_item)?,
        weak: all.list(List::Weak, weak_item)?,
        queue: all.list(List::Queue, queue_item)?,
        counters: all.counters()?,
        main: all.main(sizes)?,
        out: userdata(heap.out())?.map(|d| (d, Value::Nil)),
    };
    Ok((whole, all.waiting()?))
}
