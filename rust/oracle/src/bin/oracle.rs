//! `oracle [FILE]`: runs a script from standard input or a file; an answer for each command.
//! `oracle --heapscript [FILE]`: prints what the program heapscript has to print.

use std::fs::File;
use std::io::{self, BufRead, BufReader, BufWriter};
use std::process::ExitCode;

const USAGE: &str = "usage: oracle [--heapscript] [FILE]";

fn main() -> ExitCode {
    let mut words: Vec<String> = std::env::args().skip(1).collect();
    let heapscript = words.first().is_some_and(|word| word == "--heapscript");
    if heapscript {
        words.remove(0);
    }
    let result = match words.as_slice() {
        [] => run(heapscript, BufReader::new(io::stdin())),
        [name] => File::open(name)
            .map_err(|error| io::Error::other(format!("{name}: {error}")))
            .and_then(|file| run(heapscript, BufReader::new(file))),
        _ => Err(io::Error::other(USAGE)),
    };
    match result {
        Ok(()) => ExitCode::SUCCESS,
        // Whoever reads the answers has seen enough.
        Err(error) if error.kind() == io::ErrorKind::BrokenPipe => ExitCode::SUCCESS,
        Err(error) => {
            eprintln!("oracle: {error}");
            ExitCode::from(2)
        }
    }
}

fn run(heapscript: bool, input: impl BufRead + 'static) -> io::Result<()> {
    let output = BufWriter::new(io::stdout());
    if heapscript {
        return oracle::heapscript::run(input, output);
    }
    oracle::script::run(input, output).map(drop)
}
