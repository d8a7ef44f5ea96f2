//! A snapshot in words, line by line. Equal heaps give equal text.

use crate::field::Field;
use crate::heap::Oracle;
use crate::line::quoted;
use crate::refs::{AnyRef, TableRef};
use crate::snapshot::{
    ClosureRecord, Colour, Counters, MainRecord, Phase, ProtoRecord, Slots, Snapshot, TableRecord,
    ThreadRecord, UpvalRecord, UserdataRecord, WorkItem,
};
use std::fmt::{self, Display, Formatter};

/// Items between brackets.
fn list<T: Display>(items: &[T]) -> String {
    let words: Vec<String> = items.iter().map(T::to_string).collect();
    format!("[{}]", words.join(" "))
}

fn maybe(table: &Option<TableRef>) -> String {
    Field::show(table)
}

impl Display for Colour {
    fn fmt(&self, f: &mut Formatter<'_>) -> fmt::Result {
        f.write_str(match self {
            Self::Free => "free",
            Self::White0 => "white0",
            Self::White1 => "white1",
            Self::Gray => "gray",
            Self::Black => "black",
        })
    }
}

impl Display for Phase {
    fn fmt(&self, f: &mut Formatter<'_>) -> fmt::Result {
        f.write_str(match self {
            Self::Pause => "pause",
            Self::Propagate => "propagate",
            Self::SweepString => "sweepstring",
            Self::Sweep => "sweep",
            Self::Finalize => "finalize",
        })
    }
}

impl Display for WorkItem {
    fn fmt(&self, f: &mut Formatter<'_>) -> fmt::Result {
        match self {
            Self::Table(r) => r.fmt(f),
            Self::Closure(r) => r.fmt(f),
            Self::Thread(r) => r.fmt(f),
            Self::Main => f.write_str("main"),
        }
    }
}

impl Display for TableRecord {
    fn fmt(&self, f: &mut Formatter<'_>) -> fmt::Result {
        let nodes: Vec<String> = self.nodes.iter().map(|(k, v)| format!("{k}={v}")).collect();
        let (meta, array) = (maybe(&self.metatable), list(&self.array));
        write!(f, "meta {meta} array {array} nodes {}", list(&nodes))
    }
}

impl Display for ClosureRecord {
    fn fmt(&self, f: &mut Formatter<'_>) -> fmt::Result {
        match self {
            Self::Lua {
                proto,
                env,
                upvalues,
            } => {
                write!(f, "lua proto {proto} env {env} upvalues {}", list(upvalues))
            }
            Self::Rust { env, values } => {
                write!(f, "rust env {} values {}", maybe(env), list(values))
            }
        }
    }
}

impl Display for UpvalRecord {
    fn fmt(&self, f: &mut Formatter<'_>) -> fmt::Result {
        match self {
            Self::Open => f.write_str("open"),
            Self::Closed(value) => write!(f, "closed {value}"),
        }
    }
}

impl Display for UserdataRecord {
    fn fmt(&self, f: &mut Formatter<'_>) -> fmt::Result {
        let (meta, env) = (maybe(&self.metatable), maybe(&self.env));
        let finalized = if self.finalized { "yes" } else { "no" };
        write!(
            f,
            "meta {meta} env {env} number {} finalized {finalized}",
            self.number
        )
    }
}

impl Display for ThreadRecord {
    fn fmt(&self, f: &mut Formatter<'_>) -> fmt::Result {
        write!(
            f,
            "global {} hook {} error {}",
            self.global, self.hook, self.error
        )?;
        write!(f, " size {} top {}", self.stack.len(), self.top)?;
        write!(f, " stack {}", list(&self.stack))?;
        write!(
            f,
            " open {} suspended {}",
            list(&self.open),
            list(&self.suspended)
        )
    }
}

impl Display for ProtoRecord {
    fn fmt(&self, f: &mut Formatter<'_>) -> fmt::Result {
        let parent = if self.has_parent { "yes" } else { "no" };
        let (constants, nested) = (list(&self.constants), list(&self.nested));
        write!(f, "constants {constants} nested {nested} parent {parent}")
    }
}

impl Display for Counters {
    fn fmt(&self, f: &mut Formatter<'_>) -> fmt::Result {
        write!(f, "phase {} white {}", self.phase, self.white)?;
        write!(f, " cursor {} {}", self.cursor.0, self.cursor.1)?;
        write!(f, " total {} peak {}", self.total, self.peak)?;
        write!(f, " limit {}", Field::show(&self.limit))?;
        write!(
            f,
            " estimate {} threshold {}",
            self.estimate, self.threshold
        )?;
        write!(f, " debt {} number {}", self.debt, self.number)?;
        write!(f, " pause {} stepmul {}", self.pause, self.stepmul)
    }
}

impl Display for MainRecord {
    fn fmt(&self, f: &mut Formatter<'_>) -> fmt::Result {
        let metatables: Vec<String> = self.type_metatables.iter().map(maybe).collect();
        writeln!(f, "main global {} registry {}", self.global, self.registry)?;
        writeln!(f, "main top {} stack {}", self.top, list(&self.stack))?;
        writeln!(f, "main open {}", list(&self.open))?;
        writeln!(f, "main ci {} frames {}", self.ci, list(&self.frames))?;
        writeln!(f, "main error {} hook {}", self.error, self.hook)?;
        writeln!(f, "main type metatables {}", list(&metatables))
    }
}

/// An arena: a line for the whole, a line for each slot.
fn arena<R>(
    f: &mut Formatter<'_>,
    (name, letter): (&str, char),
    slots: &Slots<R>,
    show: impl Fn(&R) -> String,
) -> fmt::Result {
    let (fresh, occupied) = (slots.list.len(), slots.occupied);
    let chain = list(&slots.chain);
    writeln!(f, "{name} fresh {fresh} occupied {occupied} chain {chain}")?;
    for (i, slot) in slots.list.iter().enumerate() {
        write!(f, "{letter}{i}.{} {}", slot.generation, slot.colour)?;
        match &slot.record {
            Some(record) => writeln!(f, " {}", show(record))?,
            None => writeln!(f)?,
        }
    }
    Ok(())
}

impl Display for Snapshot {
    fn fmt(&self, f: &mut Formatter<'_>) -> fmt::Result {
        writeln!(f, "sizes {}", list(&<[u32; 10]>::from(self.sizes)))?;
        arena(f, ("strings", 's'), &self.strings, |s| quoted(s))?;
        arena(f, ("tables", 't'), &self.tables, ToString::to_string)?;
        arena(f, ("closures", 'f'), &self.closures, ToString::to_string)?;
        arena(f, ("upvalues", 'u'), &self.upvalues, ToString::to_string)?;
        arena(f, ("userdata", 'd'), &self.userdata, ToString::to_string)?;
        arena(f, ("threads", 'h'), &self.threads, ToString::to_string)?;
        writeln!(f, "prototypes {}", self.prototypes.len())?;
        for (number, proto) in self.prototypes.iter().enumerate() {
            writeln!(f, "p{number} {proto}")?;
        }
        writeln!(f, "gray {}", list(&self.gray))?;
        writeln!(f, "grayagain {}", list(&self.grayagain))?;
        writeln!(f, "weak {}", list(&self.weak))?;
        writeln!(f, "queue {}", list(&self.queue))?;
        writeln!(f, "{}", self.counters)?;
        self.main.fmt(f)?;
        match self.out {
            Some((userdata, method)) => writeln!(f, "out {userdata} {method}"),
            None => writeln!(f, "out none"),
        }
    }
}

impl Oracle {
    /// The record of an object as a dump writes it; none if the handle is stale.
    pub(crate) fn record_text(&self, handle: AnyRef) -> Option<String> {
        let gc = &self.state.gc;
        match handle {
            AnyRef::Str(r) => gc.string_arena.get(r.gc()).map(|s| quoted(s.data())),
            AnyRef::Table(r) => gc
                .tables
                .get(r.gc())
                .map(|t| TableRecord::from(t).to_string()),
            AnyRef::Func(r) => {
                let record = gc.closures.get(r.gc()).map(|c| self.closure_record(c));
                record.map(|c| c.to_string())
            }
            AnyRef::Upval(r) => gc
                .upvalues
                .get(r.gc())
                .map(|u| UpvalRecord::from(u).to_string()),
            AnyRef::Ud(r) => gc
                .userdata
                .get(r.gc())
                .map(|d| UserdataRecord::from(d).to_string()),
            AnyRef::Thread(r) => gc
                .threads
                .get(r.gc())
                .map(|h| ThreadRecord::from(h).to_string()),
        }
    }
}
