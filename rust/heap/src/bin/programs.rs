//! Prints what a program of crates/ prints, as the source has it: `programs heap_header`,
//! `programs heap_lengths`.

use heap::programs;
use std::process::ExitCode;

fn main() -> ExitCode {
    match std::env::args().nth(1).as_deref() {
        Some("heap_header") => print!("{}", programs::header()),
        Some("heap_lengths") => print!("{}", programs::lengths()),
        _ => {
            eprintln!("programs: heap_header or heap_lengths");
            return ExitCode::FAILURE;
        }
    }
    ExitCode::SUCCESS
}
