//! Prints what the program steps_cycle of crates/ reads, and what it prints, as the source has it:
//! `steps_cycle stdin`, `steps_cycle stdout`.

use std::process::ExitCode;
use steps::cycle;

fn main() -> ExitCode {
    match std::env::args().nth(1).as_deref() {
        Some("stdin") => print!("{}", cycle::read()),
        Some("stdout") => print!("{}", cycle::printed()),
        _ => {
            eprintln!("steps_cycle: stdin or stdout");
            return ExitCode::FAILURE;
        }
    }
    ExitCode::SUCCESS
}
