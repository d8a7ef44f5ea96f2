//! The rules of `heapscript`, line by line, and its random scripts.

use oracle::heapscript::{self, generate, lines, printed};

/// What the lines print, as lines.
fn play(script: &[&str]) -> Vec<String> {
    let script: String = script.iter().map(|line| format!("{line}\n")).collect();
    printed(script.as_bytes())
        .lines()
        .map(str::to_owned)
        .collect()
}

/// The last line that the lines print.
fn last(script: &[&str]) -> String {
    play(script).pop().unwrap_or_default()
}

/// So many lines alike, then others.
fn after<'a>(count: usize, line: &'a str, rest: &[&'a str]) -> Vec<&'a str> {
    [vec![line; count], rest.to_vec()].concat()
}

#[test]
fn the_example_of_document_01() {
    let script = b"str ab\nstr cd\npush 1\ncollect\n";
    let wanted = "1 str 2 0\n2 str 3 0\nfreed 1 0 0 0 0 0\n";
    assert_eq!(printed(script), wanted);
}

#[test]
fn a_popped_value_at_place_0_is_still_a_root() {
    let script = ["str ab", "push 1", "pop", "collect"];
    assert_eq!(play(&script), ["1 str 2 0", "freed 0 0 0 0 0 0"]);
    let above = ["str ab", "push 0", "push 1", "pop", "collect"];
    assert_eq!(last(&above), "freed 1 0 0 0 0 0");
}

#[test]
fn the_two_names_are_found() {
    let script = ["str __mode", "str __gc", "str __mode"];
    assert_eq!(play(&script), ["1 str 0 0", "2 str 1 0", "3 str 0 0"]);
}

#[test]
fn a_string_found_again_has_a_number_of_its_own() {
    let script = ["str a", "str a", "str b", "push 2", "collect", "push 3"];
    let wanted = [
        "1 str 2 0",
        "2 str 2 0",
        "3 str 3 0",
        "freed 1 0 0 0 0 0",
        "line 6 refused 2",
    ];
    assert_eq!(play(&script), wanted);
}

#[test]
fn a_bad_command_is_4() {
    let bad = [
        "",
        " ",
        "#",
        "str",
        "STR a",
        " str a",
        "ud ",
        "ud 1",
        "pop ",
        "pop 1",
        "pop\r",
        "collect ",
        "tab",
        "tab ",
        "tab 1",
        "tab 1 ",
        "tab  1 1",
        "tab 1  1",
        "tab 1 1 ",
        "tab 1 1 1",
        "tab\t1 1",
        "tab -1 1",
        "tab +1 1",
        "tab 1.0 1",
        "tab 1x 1",
        "push",
        "push ",
        "push a",
        "push 0 ",
        "seti",
        "seti 1 0",
        "seti 1 0 0 0",
        "setn 1 0 0",
        "setn 1 0 0 0 0",
        "meta",
        "meta 1",
        "meta 1 0 0",
        "tabs 1 1",
        "ta 1 1",
        "nothing",
    ];
    for line in bad {
        let refused = play(&["tab 1 1", line, "ud"]);
        assert_eq!(
            refused,
            ["1 tab 2 0", "line 2 refused 4", "2 ud 0 0"],
            "{line}"
        );
    }
}

#[test]
fn numbers_are_decimal_digits_up_to_2_32_less_1() {
    assert_eq!(play(&["tab 1 1", "push 1", "push 001", "push 0"]).len(), 1);
    let zeros = format!("push {}1", "0".repeat(100));
    assert_eq!(play(&["ud", &zeros]), ["1 ud 0 0"]);
    // Each names nothing: the one is unmade, the other would be 1 again in 32 bits.
    for line in [
        "push 4294967295",
        "push 4294967297",
        "push 18446744073709551617",
    ] {
        assert_eq!(last(&["ud", line]), "line 2 refused 4");
    }
    let past = ["tab 1 1", "seti 1 4294967296 0", "setn 1 4294967296 1 1"];
    assert_eq!(play(&past)[1..], ["line 2 refused 4", "line 3 refused 4"]);
}

#[test]
fn an_unmade_number_is_4() {
    for line in [
        "push 3",
        "seti 3 0 0",
        "seti 1 0 3",
        "setn 3 0 0 0",
        "setn 1 0 3 0",
        "setn 1 0 2 3",
        "meta 3 0",
        "meta 2 3",
    ] {
        assert_eq!(last(&["tab 1 1", "ud", line]), "line 3 refused 4", "{line}");
    }
    // A refused making takes no number.
    assert_eq!(last(&["tab 65 0", "push 1"]), "line 2 refused 4");
}

#[test]
fn a_wrong_kind_is_4() {
    for line in [
        "seti 1 0 0",
        "seti 2 0 0",
        "seti 0 0 0",
        "setn 1 0 0 0",
        "setn 2 0 0 0",
        "setn 0 0 0 0",
        "meta 1 0",
        "meta 1 3",
        "meta 0 3",
        "meta 0 0",
        "meta 2 1",
        "meta 2 2",
        "meta 3 1",
    ] {
        let script = ["str a", "ud", "tab 1 1", line];
        assert_eq!(last(&script), "line 4 refused 4", "{line}");
    }
}

#[test]
fn what_the_heap_refuses_with_4() {
    let long = format!("str {}", "x".repeat(65));
    let most = format!("str {}", "x".repeat(64));
    assert_eq!(play(&[&long, &most]), ["line 1 refused 4", "1 str 2 0"]);
    for line in [
        "tab 65 0",
        "tab 0 3",
        "tab 0 128",
        "tab 4294967295 0",
        "tab 0 4294967295",
    ] {
        assert_eq!(play(&[line]), ["line 1 refused 4"]);
    }
    for line in [
        "seti 1 2 1",
        "seti 1 4294967295 1",
        "setn 1 2 2 1",
        "setn 1 0 0 1",
        "setn 1 1 2 1",
    ] {
        let script = ["tab 2 2", "ud", "setn 1 0 2 1", line];
        assert_eq!(last(&script), "line 4 refused 4", "{line}");
    }
    let over = after(32, "push 0", &["push 0"]);
    assert_eq!(play(&over), ["line 33 refused 4"]);
}

#[test]
fn a_freed_object_is_2() {
    let freed = ["tab 1 1", "ud", "collect"];
    for line in [
        "push 1",
        "push 2",
        "seti 1 0 0",
        "setn 1 0 2 0",
        "meta 1 0",
        "meta 2 0",
        "meta 3 1",
        "seti 3 0 1",
        "setn 3 0 2 3",
        "setn 3 0 3 2",
    ] {
        let script = [&freed[..], &["tab 1 1", line]].concat();
        assert_eq!(last(&script), "line 5 refused 2", "{line}");
    }
    // Index and node of a freed table are not looked at; of a live one they come first.
    for (line, number) in [
        ("seti 1 9 0", 2),
        ("setn 1 9 2 0", 2),
        ("setn 1 9 0 2", 4),
        ("seti 3 9 1", 4),
        ("setn 3 9 2 1", 4),
    ] {
        let script = [&freed[..], &["tab 1 1", line]].concat();
        assert_eq!(last(&script), format!("line 5 refused {number}"), "{line}");
    }
    let full = [&freed[..], &after(32, "push 0", &["push 1"])].concat();
    assert_eq!(last(&full), "line 36 refused 4");
}

#[test]
fn a_full_arena_is_3() {
    assert_eq!(last(&after(16, "ud", &["ud"])), "line 17 refused 3");
    let tables = after(14, "tab 0 0", &["tab 0 0"]);
    assert_eq!(last(&tables), "line 15 refused 3");
    let wrong = after(14, "tab 0 0", &["tab 65 0"]);
    assert_eq!(last(&wrong), "line 15 refused 4");
    let texts: Vec<String> = (0..15).map(|n| format!("str {n}")).collect();
    let mut texts: Vec<&str> = texts.iter().map(String::as_str).collect();
    assert_eq!(last(&texts), "line 15 refused 3");
    texts.push("str 7");
    assert_eq!(last(&texts), "15 str 9 0");
}

#[test]
fn a_pop_of_the_empty_stack_is_5() {
    let script = ["pop", "push 0", "pop", "pop"];
    assert_eq!(play(&script), ["line 1 refused 5", "line 4 refused 5"]);
}

#[test]
fn so_many_numbers_and_no_more() {
    let script = after(
        4096,
        "str a",
        &["str a", "ud", "str b", "push 4096", "push 4097", "collect"],
    );
    let printed = play(&script);
    assert_eq!(printed[4095], "4096 str 2 0");
    let wanted = [
        "line 4097 refused 4",
        "line 4098 refused 4",
        "line 4099 refused 4",
        "line 4101 refused 4",
        "freed 0 0 0 0 0 0",
    ];
    assert_eq!(printed[4096..], wanted);
    let printed = heapscript::printed(&generate::every_number());
    assert!(printed.contains("4096 str 2 0\nline 4097 refused 4\n"));
}

#[test]
fn texts_are_any_bytes() {
    let script = b"str \nstr \0\nstr \xff\xfe\nstr  a b \nstr \r\nstr \nstr \0\n";
    let wanted = "1 str 2 0\n2 str 3 0\n3 str 4 0\n4 str 5 0\n5 str 6 0\n6 str 2 0\n7 str 3 0\n";
    assert_eq!(printed(script), wanted);
}

#[test]
fn every_line_counts_and_the_last_may_lack_its_newline() {
    assert_eq!(printed(b""), "");
    assert_eq!(printed(b"\n"), "line 1 refused 4\n");
    assert_eq!(
        printed(b"\n\nud\n\n"),
        "line 1 refused 4\nline 2 refused 4\n1 ud 0 0\nline 4 refused 4\n"
    );
    assert_eq!(printed(b"ud"), "1 ud 0 0\n");
    assert_eq!(printed(b"str a"), "1 str 2 0\n");
    assert_eq!(printed(b"str "), "1 str 2 0\n");
    assert_eq!(lines(b"a\n\nb"), [&b"a"[..], b"", b"b"]);
    assert_eq!(lines(b"a\n"), [b"a"]);
}

#[test]
fn long_lines_are_read_whole() {
    let mut script = vec![b'x'; 100_000];
    script.extend(b"\nstr ");
    script.extend(vec![b'x'; 100_000]);
    script.extend(b"\nud\n");
    assert_eq!(
        printed(&script),
        "line 1 refused 4\nline 2 refused 4\n1 ud 0 0\n"
    );
}

/// A metatable with a `__gc`, number 2, and userdata with it.
const DUE: [&str; 3] = ["str __gc", "tab 0 1", "setn 2 0 1 1"];

#[test]
fn finalizers_come_youngest_first_and_slots_a_cycle_later() {
    let rest = ["ud", "ud", "ud", "meta 3 2", "meta 5 2", "meta 4 2"];
    let script = [&DUE[..], &rest, &["collect", "collect"]].concat();
    let wanted = [
        "final 2 0",
        "final 1 0",
        "final 0 0",
        "freed 0 0 0 0 0 0",
        "freed 0 1 0 0 3 0",
    ];
    assert_eq!(play(&script)[5..], wanted);
}

#[test]
fn a_method_that_dies_with_its_weak_metatable_is_not_handed_out() {
    // 6 is the method; 5 makes the metatable 2 weak by its values.
    let weak = ["str __mode", "str v", "tab 0 1", "setn 5 0 3 4", "tab 0 0"];
    let rest = ["setn 2 0 1 6", "meta 2 5", "ud", "meta 7 2"];
    let script = [&DUE[..], &weak, &rest, &["collect", "collect"]].concat();
    let printed = play(&script);
    assert_eq!(printed[7..], ["freed 0 1 0 0 0 0", "freed 1 2 0 0 1 0"]);
    let strong = ["setn 2 0 1 6", "meta 2 0", "ud", "meta 7 2"];
    let script = [&DUE[..], &weak, &strong, &["collect"]].concat();
    assert_eq!(play(&script)[7..], ["final 0 0", "freed 1 1 0 0 0 0"]);
}

#[test]
fn a_finalized_userdata_dies_as_value() {
    let weak = ["str __mode", "str v", "tab 0 1", "setn 5 0 3 4"];
    let table = ["tab 1 0", "meta 6 5", "push 6"];
    // The table 6 no longer holds it, so the second collection is the end of it.
    let rest = [
        "ud",
        "meta 7 2",
        "seti 6 0 7",
        "collect",
        "meta 6 0",
        "collect",
    ];
    let printed = play(&[&DUE[..], &weak, &table, &rest].concat());
    let wanted = ["final 0 0", "freed 0 0 0 0 0 0", "freed 1 2 0 0 1 0"];
    assert_eq!(printed[7..], wanted);
}

#[test]
fn a_finalized_userdata_stays_as_key() {
    let weak = ["str __mode", "str k", "tab 0 1", "setn 5 0 3 4"];
    let table = ["tab 0 1", "meta 6 5", "push 6"];
    // The value 8 goes a cycle after its key.
    let rest = ["ud", "meta 7 2", "tab 0 0", "setn 6 0 7 8"];
    let script = [&DUE[..], &weak, &table, &rest, &["collect"; 3]].concat();
    let wanted = [
        "final 0 0",
        "freed 0 0 0 0 0 0",
        "freed 0 1 0 0 1 0",
        "freed 0 1 0 0 0 0",
    ];
    assert_eq!(play(&script)[8..], wanted);
}

#[test]
fn the_key_of_a_node_without_value_is_not_followed() {
    let script = [
        "tab 0 1",
        "push 1",
        "ud",
        "setn 1 0 2 0",
        "collect",
        "setn 1 0 2 0",
    ];
    assert_eq!(
        play(&script)[2..],
        ["freed 0 0 0 0 1 0", "line 6 refused 2"]
    );
}

#[test]
fn the_two_ways_to_play_agree() {
    for seed in 0..20 {
        let script = generate::script(seed, 200);
        let mut output = Vec::new();
        heapscript::run(&script[..], &mut output).expect("memory has no trouble");
        assert_eq!(output, printed(&script).into_bytes());
    }
}

#[test]
fn random_scripts_have_so_many_lines_and_are_the_same_again() {
    for seed in 0..50 {
        let script = generate::script(seed, 200);
        assert_eq!(lines(&script).len(), 200, "seed {seed}");
        assert_eq!(script, generate::script(seed, 200));
    }
}

/// How many lines of the output are such.
fn count(printed: &str, such: impl Fn(&str) -> bool) -> usize {
    printed.lines().filter(|line| such(line)).count()
}

#[test]
fn random_scripts_bring_about_much() {
    let all: String = (0..100)
        .map(|seed| printed(&generate::script(seed, 200)))
        .collect();
    let refused = |n: u32| count(&all, |line| line.ends_with(&format!(" refused {n}")));
    assert!(refused(2) > 100 && refused(3) > 20 && refused(5) > 50);
    // One in twelve is bad; the heap refuses some more.
    assert!((1500..3000).contains(&refused(4)), "{}", refused(4));
    assert!(count(&all, |line| line.starts_with("final ")) > 300);
    for place in [1, 2, 5] {
        let freed = |line: &str| {
            let words: Vec<&str> = line.split(' ').collect();
            words[0] == "freed" && words[place] != "0"
        };
        assert!(count(&all, freed) > 100);
    }
    for kind in ["str", "tab", "ud"] {
        let again = |line: &str| line.contains(&format!(" {kind} ")) && !line.ends_with(" 0");
        assert!(count(&all, again) > 200);
    }
}
