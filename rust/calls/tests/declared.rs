//! One list of exported functions: the Rattle source has it, and the header, the Rust declarations
//! and the archives are held to it, name by name and type by type.

use collector::engine;
use std::collections::BTreeMap;
use std::fs;
use std::path::{Path, PathBuf};

/// The types of a function's parameters, as Rust writes them.
type Signature = Vec<String>;
/// Signatures by name.
type Functions = BTreeMap<String, Signature>;

/// The crate whose functions work on one arena by itself, not on a heap: no call of the header.
const APART: &str = "arena_engine";

fn root() -> PathBuf {
    Path::new(env!("CARGO_MANIFEST_DIR")).join("../..")
}

fn text(path: impl AsRef<Path>) -> String {
    let path = root().join(path);
    fs::read_to_string(&path).unwrap_or_else(|e| panic!("{}: {e}", path.display()))
}

/// What lies between the first `from` and the next `to`, and what follows.
fn between<'a>(text: &'a str, from: &str, to: &str) -> Option<(&'a str, &'a str)> {
    let (_, rest) = text.split_once(from)?;
    rest.split_once(to)
}

fn parameters(list: &str) -> impl Iterator<Item = &str> {
    list.split(',').map(str::trim).filter(|p| !p.is_empty())
}

/// A slice of Rattle is a pointer and a length.
fn rattle_types(parameter: &str) -> Signature {
    let (_, kind) = parameter.split_once(": ").expect("a name and a type");
    let slice = |mark: &str, kind: &str| {
        let item = kind.trim_end_matches(']');
        vec![format!("*{mark} {item}"), "usize".to_owned()]
    };
    match (kind.strip_prefix("&mut ["), kind.strip_prefix("&[")) {
        (Some(kind), _) => slice("mut", kind),
        (_, Some(kind)) => slice("const", kind),
        _ => vec![kind.to_owned()],
    }
}

/// The functions of a crate that are marked for export.
fn exported(source: &str) -> Functions {
    let mut found = Functions::new();
    let mut rest = source;
    while let Some((name, after)) = between(rest, "#[unsafe(no_mangle)]\npub extern \"C\" fn ", "(")
    {
        let (list, after) = after.split_once(") -> u32").expect("a code is answered");
        let types = parameters(list).flat_map(rattle_types).collect();
        found.insert(name.to_owned(), types);
        rest = after;
    }
    let marks = source.matches("#[unsafe(no_mangle)]").count();
    assert_eq!(found.len(), marks, "every marked function is read");
    found
}

/// The exported functions of each crate that has any.
fn crates() -> BTreeMap<String, Functions> {
    let mut found = BTreeMap::new();
    for folder in fs::read_dir(root().join("crates")).expect("crates") {
        let folder = folder.expect("a folder").path();
        let mut functions = Functions::new();
        for file in fs::read_dir(folder.join("src")).expect("a source") {
            let source = text(file.expect("a file").path());
            functions.extend(exported(&source));
        }
        let name = folder.file_name().expect("a name").to_string_lossy();
        if !functions.is_empty() {
            found.insert(name.into_owned(), functions);
        }
    }
    found
}

fn all() -> Functions {
    let mut all = Functions::new();
    for (name, functions) in crates() {
        for (function, types) in functions {
            let twice = all.insert(function.clone(), types);
            assert_eq!(twice, None, "{function} of {name} is exported twice");
        }
    }
    all
}

/// What the header's parameter is in Rust.
fn c_type(parameter: &str) -> String {
    let name = parameter.rfind([' ', '*']).expect("a type and a name") + 1;
    let kind = match parameter[..name].trim() {
        "const uint32_t *" => "*const u32",
        "const uint8_t *" => "*const u8",
        "uint32_t *" => "*mut u32",
        "uint8_t *" => "*mut u8",
        "size_t" => "usize",
        "uint32_t" => "u32",
        "uint64_t" => "u64",
        "int64_t" => "i64",
        other => panic!("a type that is not known: {other}"),
    };
    kind.to_owned()
}

fn header() -> Functions {
    let header = text("include/sieddesan.h");
    let mut found = Functions::new();
    let mut rest = header.as_str();
    while let Some((name, after)) = between(rest, "\nuint32_t ", "(") {
        let (list, after) = after.split_once(");").expect("an end");
        let types = parameters(list).map(c_type).collect();
        let twice = found.insert(name.to_owned(), types);
        assert_eq!(twice, None, "{name} is declared twice");
        rest = after;
    }
    found
}

fn declared() -> Functions {
    let mut all = Functions::new();
    for (name, types) in engine::DECLARED.iter().chain(slots::DECLARED) {
        let types = types.iter().map(|t| (*t).to_owned()).collect();
        let twice = all.insert((*name).to_owned(), types);
        assert_eq!(twice, None, "{name} is declared twice");
    }
    all
}

/// Every symbol that an archive's index offers: a count, so many places, so many names.
fn symbols(archive: &str) -> Vec<String> {
    let path = root().join(archive);
    let bytes = fs::read(&path).unwrap_or_else(|e| panic!("{}: {e}", path.display()));
    let member = bytes
        .strip_prefix(b"!<arch>\n/ ")
        .expect("an archive with an index");
    let word = |n: usize| &member[58..][4 * n..][..4];
    let count = u32::from_be_bytes(word(0).try_into().expect("four bytes")) as usize;
    let names = member[58 + 4 * (count + 1)..]
        .split(|b| *b == 0)
        .take(count);
    let mut names: Vec<_> = names
        .map(|n| String::from_utf8_lossy(n).into_owned())
        .collect();
    names.sort();
    names
}

/// Fails with what only one of both has, or has otherwise.
fn same(who: &str, theirs: &Functions, source: &Functions) {
    for (name, types) in source {
        assert_eq!(theirs.get(name), Some(types), "{name} in {who}");
    }
    for name in theirs.keys() {
        assert!(source.contains_key(name), "{name} in {who} alone");
    }
}

#[test]
fn the_header_declares_every_call() {
    let apart = &crates()[APART];
    let mut of_heaps = all();
    of_heaps.retain(|name, _| !apart.contains_key(name));
    same("the header", &header(), &of_heaps);
}

#[test]
fn the_header_names_the_archives() {
    let header = text("include/sieddesan.h");
    for name in crates().keys().filter(|name| *name != APART) {
        assert!(header.contains(&format!("lib{name}.a")), "{name}");
    }
}

#[test]
fn the_rust_declarations_are_those_of_the_source() {
    same("the Rust declarations", &declared(), &all());
}

#[test]
fn the_archives_offer_these_functions_and_no_more() {
    for (name, functions) in crates() {
        let offered = symbols(&format!("crates/{name}/out/lib{name}.a"));
        let source: Vec<String> = functions.into_keys().collect();
        assert_eq!(offered, source, "lib{name}.a");
    }
}
