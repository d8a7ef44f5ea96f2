//! Measures the calls that have most to do, each on a heap made for it, and compares them too. Fails
//! where one is over its bound.

use odd::finding::Finding;
use odd::judge::Judge;
use odd::slow::{due, slow};
use odd::tally::Kind;
use std::process::ExitCode;

fn main() -> ExitCode {
    let mut good = true;
    for mut call in slow().into_iter().chain([256, 1024, 2048, 4096].map(due)) {
        let mut judge = Judge::new(true);
        let found = judge.give(Kind::Slow, call.row, call.given, &mut call.heap);
        match found.map_err(|finding| *finding) {
            Ok(()) => println!("{}: {}", call.what, judge.nearest),
            Err(Finding::Slow(_, nearest)) => println!("{}: OVER: {nearest}", call.what),
            Err(finding) => println!("{}: {finding}", call.what),
        }
        good &= judge.nearest.share() <= 1.0;
    }
    if good {
        ExitCode::SUCCESS
    } else {
        ExitCode::FAILURE
    }
}
