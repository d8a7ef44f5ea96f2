//! The script `prepare`, in a folder of its own.

use std::fs;
use std::path::{Path, PathBuf};
use std::process::{Command, Output};

/// A new folder with the script and its list.
fn place(name: &str) -> PathBuf {
    let here = Path::new(env!("CARGO_MANIFEST_DIR"));
    let to = Path::new(env!("CARGO_TARGET_TMPDIR")).join(name);
    let _ = fs::remove_dir_all(&to);
    fs::create_dir_all(&to).expect("a folder for the test");
    for file in ["prepare", "source.sha256"] {
        fs::copy(here.join(file), to.join(file)).expect("a copy");
    }
    to
}

fn prepare(place: &Path, folder: Option<&Path>) -> (Option<i32>, String) {
    let mut command = Command::new("sh");
    command.arg(place.join("prepare")).env_remove("RILUA");
    let Output { status, stderr, .. } = command.args(folder).output().expect("a shell");
    (status.code(), String::from_utf8_lossy(&stderr).into_owned())
}

/// The right files, as the build has them.
fn right() -> PathBuf {
    Path::new(env!("CARGO_MANIFEST_DIR")).join("source")
}

#[test]
fn right_files_are_copied_and_then_need_no_folder() {
    let at = place("right");
    assert_eq!(prepare(&at, Some(&right())), (Some(0), String::new()));
    assert_eq!(prepare(&at, None), (Some(0), String::new()));
    assert!(at.join("source/src/vm/gc/arena.rs").is_file());
}

#[test]
fn without_a_folder_one_line_says_so() {
    let at = place("without");
    let (code, said) = prepare(&at, Some(&at.join("nowhere")));
    assert_eq!((code, said.lines().count()), (Some(2), 1), "{said}");
    assert!(said.starts_with("oracle: no source folder: give a checkout of rilua at 0880b723d0"));
}

#[test]
fn a_file_that_differs_is_named() {
    let at = place("differs");
    assert_eq!(prepare(&at, Some(&right())).0, Some(0));
    let other = at.join("other");
    fs::rename(at.join("source"), &other).expect("moved");
    let changed = other.join("src/vm/table.rs");
    fs::remove_file(&changed).expect("removed");
    fs::write(&changed, "// not the same\n").expect("written");
    let (code, said) = prepare(&at, Some(&other));
    assert_eq!((code, said.lines().count()), (Some(1), 1), "{said}");
    assert!(said.starts_with("oracle: src/vm/table.rs: "), "{said}");
    fs::remove_file(&changed).expect("removed");
    let (code, said) = prepare(&at, Some(&other));
    assert_eq!(code, Some(1));
    assert!(said.starts_with("oracle: src/vm/table.rs: "), "{said}");
}

#[test]
fn tests_at_the_end_of_a_file_are_left_out() {
    let at = place("tested");
    assert_eq!(prepare(&at, Some(&right())).0, Some(0));
    let other = at.join("other");
    fs::rename(at.join("source"), &other).expect("moved");
    let longer = other.join("src/vm/table.rs");
    let plain = fs::read_to_string(&longer).expect("read");
    fs::remove_file(&longer).expect("removed");
    let tested = format!("{plain}#[cfg(test)]\nmod tests {{}}\n");
    fs::write(&longer, tested).expect("written");
    assert_eq!(prepare(&at, Some(&other)), (Some(0), String::new()));
    let copied = fs::read_to_string(at.join("source/src/vm/table.rs"));
    assert_eq!(copied.expect("read"), plain);
}
