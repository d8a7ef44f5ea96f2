//! The rows, by groups.

mod arena;
mod budgeted;
mod cheap;
mod finalizers;
mod fixed;
mod full;
mod longest;
mod making;
mod phases;
mod strings;
mod weak;

use crate::group;
use crate::run::Run;

/// Every row, in the order of the page.
pub fn all(rounds: usize) {
    for (group, rows) in [
        (&group::FIXED, fixed::rows as fn(&Run)),
        (&group::CHEAP, cheap::rows),
        (&group::NODES, cheap::nodes),
        (&group::MAKING, making::rows),
        (&group::STRINGS, strings::rows),
        (&group::PHASES, phases::rows),
        (&group::BUDGETED, budgeted::rows),
        (&group::TABLES, full::tables),
        (&group::FULL, full::rows),
        (&group::WEAK, weak::rows),
        (&group::FINALIZERS, finalizers::rows),
        (&group::LONGEST, longest::rows),
        (&group::ARENA, arena::rows),
    ] {
        rows(&Run { rounds, group });
    }
}
