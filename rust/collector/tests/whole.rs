//! Every exported function is a call of this crate.

use collector::engine::DECLARED;
use std::fs;
use std::path::Path;

/// The source of the crate without the file that declares the functions.
fn source() -> String {
    let folder = Path::new(env!("CARGO_MANIFEST_DIR")).join("src");
    let files = fs::read_dir(folder)
        .expect("a source")
        .map(|file| file.expect("a file").path());
    files
        .filter(|file| !file.ends_with("engine.rs"))
        .map(|file| fs::read_to_string(file).expect("text"))
        .collect()
}

#[test]
fn every_exported_function_is_reached() {
    let source = source();
    for (symbol, _) in DECLARED {
        let name = symbol.strip_prefix("sieddesan_").expect("the prefix");
        let called = [format!("engine::{name}("), format!("(engine::{name})")];
        assert!(
            called.iter().any(|call| source.contains(call)),
            "{name} is called"
        );
        assert!(
            source.contains(&format!("#[doc(alias = \"{symbol}\")]")),
            "{symbol} is found"
        );
    }
}
