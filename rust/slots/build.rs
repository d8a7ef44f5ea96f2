//! Links the proved arena.

fn main() {
    proved::link("arena_engine");
}
