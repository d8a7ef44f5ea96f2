//! Programs with a fault each: the comparison must see it, and show it by a short script.

use oracle::heapscript;
use script::{Ended, Program, random, shrink};
use std::io;

/// A program in this process.
struct Faulty<F>(F);

impl<F: Fn(&[u8]) -> Vec<u8>> Program for Faulty<F> {
    fn play(&self, script: &[u8]) -> io::Result<Ended> {
        Ok(Ended {
            printed: (self.0)(script),
            failed: None,
        })
    }
}

/// A program that reads each line in another way and prints what is right for that.
fn reads(other: impl Fn(&[u8]) -> Vec<u8>) -> impl Fn(&[u8]) -> Vec<u8> {
    move |script| {
        let line = |line: &&[u8]| [&other(line)[..], b"\n"].concat();
        let script: Vec<u8> = heapscript::lines(script).iter().flat_map(line).collect();
        heapscript::printed(&script).into_bytes()
    }
}

/// A program that prints the lines of the right output in another way.
fn prints(other: impl Fn(Vec<String>) -> Vec<String>) -> impl Fn(&[u8]) -> Vec<u8> {
    move |script| {
        let printed = heapscript::printed(script);
        let lines = other(printed.lines().map(str::to_owned).collect());
        let lines = lines.into_iter().map(|line| line + "\n");
        lines.collect::<String>().into_bytes()
    }
}

/// The fault is seen within 100 scripts, and the script that shows it has so few lines.
fn seen(fault: &str, few: usize, program: impl Fn(&[u8]) -> Vec<u8>) {
    let found = random::scripts(&Faulty(program), 100, 1).expect("it runs");
    let report = *found.expect_err(fault);
    let shrunk = report.shrunk.expect("the same script shows it again");
    let lines = heapscript::lines(&shrunk.script).len();
    assert!(lines <= few, "{fault}: {shrunk}");
}

/// The line, its fields changed one by one.
fn fields(line: &[u8], change: impl Fn(&[u8]) -> Vec<u8>) -> Vec<u8> {
    let fields: Vec<Vec<u8>> = line.split(|byte| *byte == b' ').map(change).collect();
    fields.join(&b' ')
}

#[test]
fn a_right_program_shows_nothing() {
    let right = Faulty(|script: &[u8]| heapscript::printed(script).into_bytes());
    let tally = random::scripts(&right, 20, 1).expect("it runs");
    assert_eq!(tally.map(|tally| tally.lines), Ok(20 * random::LINES));
}

#[test]
fn lines_read_in_another_way() {
    seen(
        "spaces at the end",
        4,
        reads(|line| line.trim_ascii_end().to_vec()),
    );
    seen(
        "a carriage return dropped",
        4,
        reads(|line| line.strip_suffix(b"\r").unwrap_or(line).to_vec()),
    );
    seen(
        "texts end at a zero byte",
        4,
        reads(|line| line.split(|byte| *byte == 0).next().unwrap_or(b"").to_vec()),
    );
    seen(
        "texts cut at 64 bytes",
        4,
        reads(|line| line[..line.len().min(68)].to_vec()),
    );
    seen(
        "two spaces read as one",
        4,
        reads(|line| {
            line.split(|byte| *byte == b' ')
                .filter(|field| !field.is_empty())
                .collect::<Vec<_>>()
                .join(&b' ')
        }),
    );
    seen("small letters wanted", 4, reads(<[u8]>::to_ascii_lowercase));
    seen(
        "comments",
        4,
        reads(|line| {
            if line.starts_with(b"#") {
                b"push 0".to_vec()
            } else {
                line.to_vec()
            }
        }),
    );
}

#[test]
fn numbers_read_in_another_way() {
    let wraps = |field: &[u8]| {
        let text = String::from_utf8_lossy(field);
        let number: Option<u128> = text.parse().ok();
        number.map_or(field.to_vec(), |n| (n as u32).to_string().into_bytes())
    };
    seen("numbers wrap", 4, reads(move |line| fields(line, wraps)));
    let signed = |field: &[u8]| field.strip_prefix(b"+").unwrap_or(field).to_vec();
    seen("signs", 4, reads(move |line| fields(line, signed)));
    let short = |field: &[u8]| match field.starts_with(b"00") {
        true => b"x".to_vec(),
        false => field.to_vec(),
    };
    seen("no zeros before", 4, reads(move |line| fields(line, short)));
}

#[test]
fn lines_counted_in_another_way() {
    seen("empty lines do not count", 4, |script: &[u8]| {
        let mut play = heapscript::Play::new();
        let lines = heapscript::lines(script).into_iter();
        let lines = lines.filter(|line| !line.is_empty());
        lines
            .map(|line| play.line(line))
            .collect::<String>()
            .into_bytes()
    });
    seen("the last line needs its newline", 4, |script: &[u8]| {
        let ended = script.iter().rposition(|byte| *byte == b'\n');
        heapscript::printed(&script[..ended.map_or(0, |at| at + 1)]).into_bytes()
    });
    seen(
        "an empty line after the last newline",
        4,
        |script: &[u8]| heapscript::printed(&[script, b"\n"].concat()).into_bytes(),
    );
}

#[test]
fn outputs_of_another_form() {
    let swapped = |line: String| match line.split(' ').collect::<Vec<_>>().as_slice() {
        ["freed", s, t, f, u, d, h] => format!("freed {t} {s} {f} {u} {d} {h}"),
        _ => line,
    };
    seen(
        "two counts exchanged",
        4,
        prints(move |lines| lines.into_iter().map(swapped).collect()),
    );
    seen(
        "finalizers oldest first",
        10,
        prints(|mut lines| {
            for run in lines
                .chunk_by_mut(|one, other| one.starts_with("final") && other.starts_with("final"))
            {
                run.reverse();
            }
            lines
        }),
    );
    seen(
        "no finalizer but the first",
        10,
        prints(|lines| {
            let mut lines = lines;
            lines.dedup_by(|one, other| one.starts_with("final") && other.starts_with("final"));
            lines
        }),
    );
    seen(
        "2 told as 4",
        4,
        prints(|lines| {
            lines
                .into_iter()
                .map(|line| line.replace("refused 2", "refused 4"))
                .collect()
        }),
    );
    seen(
        "5 told as 4",
        4,
        prints(|lines| {
            lines
                .into_iter()
                .map(|line| line.replace("refused 5", "refused 4"))
                .collect()
        }),
    );
    seen(
        "3 told as 4",
        17,
        prints(|lines| {
            lines
                .into_iter()
                .map(|line| line.replace("refused 3", "refused 4"))
                .collect()
        }),
    );
    seen("no newline at the end", 4, |script: &[u8]| {
        let printed = heapscript::printed(script);
        printed.trim_end().as_bytes().to_vec()
    });
    seen("nothing", 4, |_: &[u8]| Vec::new());
}

#[test]
fn more_numbers_than_there_are() {
    let program = Faulty(prints(|lines| {
        lines
            .into_iter()
            .filter(|line| !line.starts_with("line 4097 "))
            .collect()
    }));
    let found = random::every_number(&program).expect("it runs");
    assert!(found.is_some());
}

#[test]
fn a_program_that_fails_is_no_right_one() {
    struct Failing;
    impl Program for Failing {
        fn play(&self, script: &[u8]) -> io::Result<Ended> {
            Ok(Ended {
                printed: heapscript::printed(script).into_bytes(),
                failed: Some("exit status: 1".to_owned()),
            })
        }
    }
    let found = random::scripts(&Failing, 1, 1).expect("it runs");
    let report = found.expect_err("it fails").to_string();
    assert!(
        report.contains("the program failed: exit status: 1"),
        "{report}"
    );
}

#[test]
fn a_shrunk_script_is_numbered_anew() {
    // A userdata in slot 0 may not be pushed.
    let program = Faulty(|script: &[u8]| {
        let mut play = heapscript::Play::new();
        let mut printed = String::new();
        for line in heapscript::lines(script) {
            printed += &play.line(line);
            let stack = play.heap().snapshot().main.stack;
            if stack.contains(&oracle::Value::Userdata(oracle::UdRef::new(0, 0))) {
                printed += "caught\n";
                break;
            }
        }
        printed.into_bytes()
    });
    let script = b"str a\ntab 1 1\nbad\nseti 2 0 1\npush 2\nud\nstr b\nmeta 3 2\npush 3\ncollect\n";
    let shrunk = shrink::shrunk(&program, script).expect("it runs");
    let shrunk = shrunk.expect("it differs").script;
    assert_eq!(shrunk, b"ud\npush 1\ncollect\n");
}

#[test]
fn a_script_is_quoted_for_printf() {
    let script = b"str a'b%\\\0\xff\n";
    assert_eq!(shrink::quoted(script), r"'str a\047b%%\\\000\377\n'");
}
