//! The script language, and one stored script with its answers.

mod common;

use common::lines;

#[test]
fn what_is_not_known_gets_a_clear_line_and_ends_nothing() {
    let script =
        "\n# a comment\nbogus 1\nmake_table 1\nmake_table x 1\nmake_table 1 1 1\nmake_table 1 1\n";
    let wanted = [
        "line 3: unknown command: bogus",
        "line 4: wrong arguments: make_table: a number wanted",
        "line 5: wrong arguments: make_table: a number from 0 to 4294967295 wanted, not x",
        "line 6: wrong arguments: make_table: too many arguments",
        "t2.0",
    ];
    assert_eq!(lines(script), wanted);
}

/// Words that no line should carry, and some that it may.
const STRANGE: &[&str] = &[
    "",
    "[",
    "]",
    "\"",
    "\"\\",
    "\"\\x",
    "\"\\xg0\"",
    "\"\\q\"",
    "n:",
    "n:123",
    "s",
    "s.",
    "s1",
    "s1.",
    "s99999999999.0",
    "s4294967295.4294967295",
    "u0.0",
    "t0.0",
    "-1",
    "18446744073709551615",
    "99999999999999999999999",
    "none",
    "ok",
    "nil",
    "[nil",
    "[[",
    "é",
    "\u{0}",
    "n:7ff8000000000000",
    "4294967295",
    "[u0.0]",
    "[0 0]",
    "[255]",
    "-9223372036854775808",
    "d4294967295.0",
    "h7.7",
];

#[test]
fn no_line_is_too_strange() {
    let mut script = String::new();
    for (command, arguments) in oracle::WORDS {
        for first in STRANGE {
            for second in STRANGE {
                let rest = if arguments.len() > 2 { "nil nil" } else { "" };
                script.push_str(&format!("{command} {first} {second} {rest}\n"));
            }
            script.push_str(&format!("{command} {first}\n"));
        }
        script.push_str(&format!("{command}\n"));
    }
    assert!(!lines(&script).is_empty());
}

#[test]
fn bytes_that_are_no_text_are_read_as_well_as_may_be() {
    let input = std::io::Cursor::new(b"\xff\xfe\nmake_table 0 0\r\n".to_vec());
    let output = oracle::script::run(input, Vec::new()).expect("no trouble");
    let text = String::from_utf8_lossy(&output);
    assert!(text.starts_with("line 1: unknown command: "), "{text}");
    assert!(text.ends_with("t2.0\n"), "{text}");
}

#[test]
fn sizes_are_the_first_command_or_default() {
    let full = "make_userdata\n";
    assert_eq!(
        lines("sizes 2 2 0 0 0 0 0 0 0 1\nmake_userdata"),
        ["done", "refused 3"]
    );
    assert_eq!(
        lines(&format!("sizes 1 2 0 0 0 0 0 0 0 1\n{full}")),
        ["refused 4", "d0.0"]
    );
    let wanted = ["line 1: wrong arguments: sizes: ten numbers wanted", "d0.0"];
    assert_eq!(lines(&format!("sizes 1 2\n{full}")), wanted);
    let wanted = ["d0.0", "line 2: sizes may only be the first command"];
    assert_eq!(lines(&format!("{full}sizes 2 2 0 0 0 0 0 0 0 1")), wanted);
}

#[test]
fn the_stored_script_gives_the_stored_answers() {
    let answers = lines(include_str!("small.script"));
    let stored: Vec<&str> = include_str!("small.answers").lines().collect();
    assert_eq!(answers, stored);
    assert_eq!(answers, lines(include_str!("small.script")));
}
