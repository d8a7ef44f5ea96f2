//! Links the proved engine.

fn main() {
    for name in [
        "engine",
        "make_engine",
        "store_engine",
        "main_engine",
        "thread_engine",
        "step_engine",
        "audit_engine",
    ] {
        proved::link(name);
    }
}
