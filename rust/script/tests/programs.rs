//! Programs in processes of their own.

use oracle::heapscript;
use script::program::Compiled;
use script::stored::{self, Example};
use script::{Program, compared};

fn shell(text: &str) -> Compiled {
    let arguments = ["-c", text].map(str::to_owned).to_vec();
    Compiled::new("sh".into(), arguments)
}

#[test]
fn what_it_prints_is_compared_to_the_byte() {
    let right = shell("cat > /dev/null; echo '1 ud 0 0'");
    assert_eq!(compared(&right, b"ud\n").expect("it runs"), None);
    for text in [
        "cat > /dev/null; printf '1 ud 0 0'",
        "cat > /dev/null; printf '1 ud 0 0\\r\\n'",
        "cat > /dev/null; printf '1 ud 0 0\\n\\n'",
        "cat > /dev/null",
        "cat > /dev/null; echo '1 ud 0 0'; exit 1",
    ] {
        let found = compared(&shell(text), b"ud\n").expect("it runs");
        assert!(found.is_some(), "{text}");
    }
}

#[test]
fn a_program_that_reads_nothing_or_prints_much_ends() {
    let script = vec![b'x'; 1_000_000];
    let ended = shell("exit 3").play(&script).expect("it runs");
    assert_eq!(ended.failed.as_deref(), Some("exit status: 3"));
    let ended = shell("cat; cat").play(&script).expect("it runs");
    assert_eq!(ended.printed, script);
}

#[test]
fn a_program_that_is_not_there_is_named() {
    let missing = Compiled::new("./no/such/program".into(), Vec::new());
    let error = missing.play(b"").expect_err("nothing to run");
    assert!(error.to_string().contains("no/such/program"), "{error}");
}

#[test]
fn the_stored_examples_are_the_oracles() {
    let examples = stored::examples(&stored::folder()).expect("they are there");
    assert!(examples.len() >= 10);
    for Example {
        name,
        script,
        printed,
    } in examples
    {
        assert_eq!(heapscript::printed(&script).into_bytes(), printed, "{name}");
    }
}

#[test]
fn a_program_is_held_to_the_stored_examples() {
    let example = Example {
        name: "one".to_owned(),
        script: b"ud\n".to_vec(),
        printed: b"1 ud 0 0\n".to_vec(),
    };
    let right = shell("cat > /dev/null; echo '1 ud 0 0'");
    let wrong = shell("cat > /dev/null; echo '1 ud 0 1'");
    let examples = [example];
    assert_eq!(stored::compared(&right, &examples).expect("it runs"), None);
    let (name, _) = stored::compared(&wrong, &examples)
        .expect("it runs")
        .expect("it differs");
    assert_eq!(name, "one");
}
