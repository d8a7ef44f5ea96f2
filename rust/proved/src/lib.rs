//! What our side of each comparison shares: linking a proved library, which build scripts ask for,
//! and the codes that its functions answer.

#![forbid(unsafe_code)]

use std::path::Path;

/// Links the library of a crate: `rt lib` in the crate's folder writes it to the folder out there.
pub fn link(name: &str) {
    let folder = Path::new(env!("CARGO_MANIFEST_DIR"))
        .join("../../crates")
        .join(name)
        .join("out");
    let archive = folder.join(format!("lib{name}.a"));
    println!("cargo::rerun-if-changed={}", archive.display());
    if !archive.exists() {
        println!("cargo::error=no lib{name}.a: run `rt lib` in crates/{name} first");
    }
    println!("cargo::rustc-link-search=native={}", folder.display());
    println!("cargo::rustc-link-lib=static={name}");
}

/// A refusal number of document 01.
#[derive(Clone, Copy, Debug, PartialEq, Eq)]
pub struct Refused(pub u32);

/// What a code says: 0 is done.
///
/// # Errors
/// Any other code is a refusal.
pub fn answered(code: u32) -> Result<(), Refused> {
    if code == 0 {
        Ok(())
    } else {
        Err(Refused(code))
    }
}
