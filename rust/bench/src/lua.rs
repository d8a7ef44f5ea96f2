//! PUC Lua 5.1 and LuaJIT, which collect the same graph of tables by `graph.lua`.

use std::process::Command;
use timing::Spread;

/// Another engine, with the times that it gave.
pub struct Lua {
    pub name: &'static str,
    command: &'static str,
    /// Names of heaps, and a time for each run: the median of its rounds.
    times: Vec<(String, Vec<f64>)>,
}

const SCRIPT: &str = concat!(env!("CARGO_MANIFEST_DIR"), "/graph.lua");

impl Lua {
    pub fn all() -> [Self; 2] {
        [("PUC Lua 5.1", "lua5.1"), ("LuaJIT", "luajit")].map(|(name, command)| Self {
            name,
            command,
            times: Vec::new(),
        })
    }

    /// Makes one run of so many rounds.
    ///
    /// # Errors
    /// Says what went wrong: most often the command is not installed.
    pub fn run(&mut self, rounds: usize) -> Result<(), String> {
        let command = self.command;
        let output = Command::new(command)
            .arg(SCRIPT)
            .arg(rounds.to_string())
            .output();
        let output = output.map_err(|error| format!("{command}: {error}"))?;
        if !output.status.success() {
            let said = String::from_utf8_lossy(&output.stderr);
            return Err(format!("{command} failed: {}", said.trim()));
        }
        for (name, rounds) in told(&String::from_utf8_lossy(&output.stdout))? {
            self.add(name, Spread::of(rounds).median);
        }
        Ok(())
    }

    fn add(&mut self, name: String, time: f64) {
        match self.times.iter_mut().find(|(known, _)| *known == name) {
            Some((_, times)) => times.push(time),
            None => self.times.push((name, vec![time])),
        }
    }

    /// Its times of a heap over all runs, if it gave any.
    pub fn spread(&self, name: &str) -> Option<Spread> {
        let found = self.times.iter().find(|(known, _)| known == name);
        found.map(|(_, times)| Spread::of(times.clone()))
    }
}

/// The times of each heap by its name, in the order in which the script printed them.
fn told(text: &str) -> Result<Vec<(String, Vec<f64>)>, String> {
    let mut all: Vec<(String, Vec<f64>)> = Vec::new();
    for line in text.lines() {
        let parts = line.split_once('\t');
        let read = parts.and_then(|(name, time)| Some((name, time.parse::<f64>().ok()?)));
        let (name, time) = read.ok_or_else(|| format!("graph.lua printed: {line}"))?;
        match all.last_mut() {
            Some((last, times)) if last == name => times.push(time),
            _ => all.push((name.to_string(), vec![time])),
        }
    }
    Ok(all)
}

#[cfg(test)]
mod tests {
    use super::*;

    #[test]
    fn rounds_of_one_heap_stand_together() {
        let read = told("a\t1\na\t2\nb\t3\n").expect("lines as the script prints them");
        assert_eq!(
            read,
            [("a".into(), vec![1.0, 2.0]), ("b".into(), vec![3.0])]
        );
    }

    #[test]
    fn an_odd_line_is_told() {
        assert!(told("a 1\n").is_err());
        assert!(told("a\tx\n").is_err());
    }
}
