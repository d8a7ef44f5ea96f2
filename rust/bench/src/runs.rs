//! Repeated runs, each in a process of its own, so that where memory came to lie differs too.

use crate::line::Line;
use crate::lua::Lua;
use std::process::{Command, Stdio};

/// What all runs gave.
pub struct Runs {
    pub lines: Vec<Vec<Line>>,
    /// The other engines that could be run.
    pub lua: Vec<Lua>,
}

/// The word that asks this program for one run.
pub const ONCE: &str = "once";

fn run(rounds: usize) -> Result<Vec<Line>, String> {
    let program = std::env::current_exe().map_err(|error| error.to_string())?;
    let mut command = Command::new(program);
    command
        .arg(ONCE)
        .arg(rounds.to_string())
        .stderr(Stdio::inherit());
    let output = command.output().map_err(|error| error.to_string())?;
    if !output.status.success() {
        return Err(format!("a run ended with {}", output.status));
    }
    let text = String::from_utf8_lossy(&output.stdout);
    text.lines().map(Line::read).collect()
}

/// Makes so many runs; an engine that cannot be run is left out, and that is said once.
///
/// # Errors
/// A run of ours and the source that failed.
pub fn runs(runs: usize, rounds: usize) -> Result<Runs, String> {
    let (mut lines, mut lua) = (Vec::new(), Vec::from(Lua::all()));
    for i in 1..=runs {
        eprintln!("bench: run {i} of {runs}");
        lines.push(run(rounds)?);
        lua.retain_mut(|other| match other.run(rounds) {
            Ok(()) => true,
            Err(error) => {
                eprintln!("bench: the times of {} are left out: {error}", other.name);
                false
            }
        });
    }
    Ok(Runs { lines, lua })
}
