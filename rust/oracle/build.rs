//! Before each build: the source files must be there and right (see `prepare`).

use std::process::{Command, exit};

fn main() {
    for seen in ["prepare", "source.sha256", "source"] {
        println!("cargo:rerun-if-changed={seen}");
    }
    println!("cargo:rerun-if-env-changed=RILUA");
    match Command::new("sh").arg("prepare").status() {
        Ok(status) if status.success() => {}
        Ok(status) => exit(status.code().unwrap_or(1)),
        Err(error) => {
            eprintln!("oracle: cannot run prepare: {error}");
            exit(1);
        }
    }
}
