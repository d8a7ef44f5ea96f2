//! The stored output of the programs over a new heap is what the source says.

use heap::programs;
use std::fs;
use std::path::Path;

fn stored(name: &str) -> String {
    let crates = Path::new(env!("CARGO_MANIFEST_DIR")).join("../../crates");
    fs::read_to_string(crates.join(name).join("stdout")).expect("a stored output")
}

#[test]
fn the_header() {
    assert_eq!(programs::header(), stored("heap_header"));
}

#[test]
fn the_lengths_and_sizes() {
    assert_eq!(programs::lengths(), stored("heap_lengths"));
}
