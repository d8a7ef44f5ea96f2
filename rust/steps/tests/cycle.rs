//! What the program steps_cycle reads and prints is what the source says.

use std::fs;
use std::path::Path;
use steps::cycle;

fn stored(file: &str) -> String {
    let program = Path::new(env!("CARGO_MANIFEST_DIR")).join("../../crates/steps_cycle");
    fs::read_to_string(program.join(file)).expect("a stored file")
}

#[test]
fn the_heap() {
    assert_eq!(cycle::read(), stored("stdin"));
}

#[test]
fn the_answers() {
    assert_eq!(cycle::printed(), stored("stdout"));
}
