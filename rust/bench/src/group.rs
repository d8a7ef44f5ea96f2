//! The groups of rows, in the order of the page, and what is asked of each.

/// What is asked of every row of a group.
#[derive(Clone, Copy, Debug, PartialEq, Eq)]
pub enum Demand {
    /// At most 1.25 times the source's time.
    Collecting,
    /// Below 30 nanoseconds.
    Cheap,
    /// Reported as it is.
    None,
}

#[derive(Debug, PartialEq, Eq)]
pub struct Group {
    /// What a line of a run calls it.
    pub key: &'static str,
    pub title: &'static str,
    pub demand: Demand,
}

const fn group(key: &'static str, title: &'static str, demand: Demand) -> Group {
    Group { key, title, demand }
}

pub static FIXED: Group = group("fixed", "What every call begins with", Demand::None);
pub static CHEAP: Group = group("cheap", "Cheap calls", Demand::Cheap);
pub static NODES: Group = group("nodes", "Storing in nodes", Demand::None);
pub static MAKING: Group = group("making", "Making each kind", Demand::None);
pub static STRINGS: Group = group("strings", "Making strings", Demand::None);
pub static PHASES: Group = group("phases", "A single step of each phase", Demand::Collecting);
pub static BUDGETED: Group = group("budgeted", "Budgeted steps", Demand::Collecting);
pub static TABLES: Group = group(
    "tables",
    "Full collection of tables, beside PUC Lua 5.1 and LuaJIT",
    Demand::Collecting,
);
pub static FULL: Group = group(
    "full",
    "Full collection of heaps with every kind",
    Demand::Collecting,
);
pub static WEAK: Group = group("weak", "Weak tables", Demand::Collecting);
pub static FINALIZERS: Group = group("finalizers", "Finalizers", Demand::Collecting);
pub static LONGEST: Group = group("longest", "The longest step", Demand::None);
pub static ARENA: Group = group("arena", "One arena by itself", Demand::None);

pub static ALL: [&Group; 13] = [
    &FIXED,
    &CHEAP,
    &NODES,
    &MAKING,
    &STRINGS,
    &PHASES,
    &BUDGETED,
    &TABLES,
    &FULL,
    &WEAK,
    &FINALIZERS,
    &LONGEST,
    &ARENA,
];

/// The group of a key.
pub fn of(key: &str) -> Option<&'static Group> {
    ALL.into_iter().find(|group| group.key == key)
}
