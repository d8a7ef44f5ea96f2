//! What is worth knowing of the machine that timed, as far as it tells.

use std::fs;

/// The processor's name, as Linux has it.
fn processor() -> Option<String> {
    let told = fs::read_to_string("/proc/cpuinfo").ok()?;
    let line = told.lines().find(|line| line.starts_with("model name"))?;
    Some(line.split_once(':')?.1.trim().to_string())
}

/// How many programs wanted to run in the minute before.
fn load() -> Option<String> {
    let told = fs::read_to_string("/proc/loadavg").ok()?;
    Some(told.split_whitespace().next()?.to_string())
}

pub fn told() -> String {
    let cores = std::thread::available_parallelism().map_or(1, usize::from);
    let processor = processor().unwrap_or_else(|| "a processor that does not tell its name".into());
    let load = load().map_or_else(String::new, |load| format!(", load before {load}"));
    format!("{cores} cores of {processor}{load}")
}
