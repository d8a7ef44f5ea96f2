//! The audit of document 01. The source has none, so this is glue over a snapshot: the phase is
//! Pause, each list is within its room, each chain holds every free slot below the fresh index
//! once, and every handle in an occupied record names an occupied slot.

use crate::heap::Oracle;
use crate::refs::AnyRef;
use crate::snapshot::{
    ClosureRecord, Colour, Phase, Slots, Snapshot, TableRecord, ThreadRecord, UpvalRecord,
    UserdataRecord,
};
use crate::value::Value;

/// A handle or value that a record holds.
enum Held {
    Handle(AnyRef),
    Value(Value),
}

impl Oracle {
    /// Does the heap pass the audit?
    pub fn audit(&mut self) -> bool {
        let whole = self.snapshot();
        whole.counters.phase == Phase::Pause
            && within_room(&whole)
            && chains_hold(&whole)
            && held(&whole).iter().all(|h| match h {
                Held::Handle(r) => self.is_named(*r),
                Held::Value(v) => self.is_sound(*v),
            })
    }
}

fn within_room(whole: &Snapshot) -> bool {
    let sizes = whole.sizes;
    let gray = sizes.tables + sizes.closures + sizes.threads + 1;
    let grayagain = sizes.tables + 2 * sizes.threads + 1;
    whole.gray.len() <= gray as usize
        && whole.grayagain.len() <= grayagain as usize
        && whole.weak.len() <= 2 * sizes.tables as usize
        && whole.queue.len() <= sizes.userdata as usize
}

fn chains_hold(whole: &Snapshot) -> bool {
    chain_holds(&whole.strings)
        && chain_holds(&whole.tables)
        && chain_holds(&whole.closures)
        && chain_holds(&whole.upvalues)
        && chain_holds(&whole.userdata)
        && chain_holds(&whole.threads)
}

fn chain_holds<R>(slots: &Slots<R>) -> bool {
    let mut chain = slots.chain.clone();
    chain.sort_unstable();
    let is_free = |i: &usize| slots.list[*i].colour == Colour::Free;
    let free = (0..slots.list.len()).filter(is_free).map(|i| i as u32);
    chain.into_iter().eq(free)
}

fn held(whole: &Snapshot) -> Vec<Held> {
    let mut all = Vec::new();
    records(&whole.tables).for_each(|r| table(r, &mut all));
    records(&whole.closures).for_each(|r| closure(r, &mut all));
    for record in records(&whole.upvalues) {
        if let UpvalRecord::Closed(value) = record {
            all.push(Held::Value(*value));
        }
    }
    records(&whole.userdata).for_each(|r| userdata(r, &mut all));
    records(&whole.threads).for_each(|r| thread(r, &mut all));
    all
}

fn records<R>(slots: &Slots<R>) -> impl Iterator<Item = &R> {
    slots.list.iter().filter_map(|slot| slot.record.as_ref())
}

fn handles<H: Into<AnyRef> + Copy>(list: &[H]) -> impl Iterator<Item = Held> {
    list.iter().map(|h| Held::Handle((*h).into()))
}

fn table(record: &TableRecord, all: &mut Vec<Held>) {
    all.extend(handles(record.metatable.as_slice()));
    all.extend(record.array.iter().map(|v| Held::Value(*v)));
    let nodes = record.nodes.iter().flat_map(|(k, v)| [*k, *v]);
    all.extend(nodes.map(Held::Value));
}

fn closure(record: &ClosureRecord, all: &mut Vec<Held>) {
    match record {
        ClosureRecord::Lua { env, upvalues, .. } => {
            all.extend(handles(&[*env]));
            all.extend(handles(upvalues));
        }
        ClosureRecord::Rust { env, values } => {
            all.extend(handles(env.as_slice()));
            all.extend(values.iter().map(|v| Held::Value(*v)));
        }
    }
}

fn userdata(record: &UserdataRecord, all: &mut Vec<Held>) {
    all.extend(handles(record.metatable.as_slice()));
    all.extend(handles(record.env.as_slice()));
}

fn thread(record: &ThreadRecord, all: &mut Vec<Held>) {
    all.extend(handles(&[record.global]));
    all.extend([record.hook, record.error].map(Held::Value));
    all.extend(record.stack.iter().map(|v| Held::Value(*v)));
    all.extend(handles(&record.open));
    all.extend(handles(&record.suspended));
}
