//! The compiled program, run on a script.

use std::io::{self, Write};
use std::path::{Path, PathBuf};
use std::process::{Command, Stdio};
use std::thread;

/// How a run ended.
#[derive(Clone, Debug, PartialEq, Eq)]
pub struct Ended {
    /// All that was printed.
    pub printed: Vec<u8>,
    /// What the status says, if it is not success.
    pub failed: Option<String>,
}

/// Something that plays scripts.
pub trait Program {
    /// Plays one.
    ///
    /// # Errors
    /// It cannot be run at all.
    fn play(&self, script: &[u8]) -> io::Result<Ended>;
}

/// A program with its arguments. It gets the script on its standard input.
#[derive(Clone, Debug)]
pub struct Compiled {
    path: PathBuf,
    arguments: Vec<String>,
}

impl Compiled {
    #[must_use]
    pub const fn new(path: PathBuf, arguments: Vec<String>) -> Self {
        Self { path, arguments }
    }

    /// The proved program, where `rt run` in crates/heapscript leaves it.
    #[must_use]
    pub fn heapscript() -> Self {
        let root = Path::new(env!("CARGO_MANIFEST_DIR")).join("../..");
        Self::new(root.join("crates/heapscript/out/heapscript"), Vec::new())
    }

    fn run(&self, script: &[u8]) -> io::Result<Ended> {
        let mut child = Command::new(&self.path)
            .args(&self.arguments)
            .stdin(Stdio::piped())
            .stdout(Stdio::piped())
            .stderr(Stdio::null())
            .spawn()?;
        let input = child.stdin.take();
        let output = thread::scope(|scope| {
            scope.spawn(move || {
                // A program that has ended reads no more; what it printed will tell.
                let _ = input.map(|mut input| input.write_all(script));
            });
            child.wait_with_output()
        })?;
        Ok(Ended {
            printed: output.stdout,
            failed: (!output.status.success()).then(|| output.status.to_string()),
        })
    }
}

impl Program for Compiled {
    fn play(&self, script: &[u8]) -> io::Result<Ended> {
        let named = |error: io::Error| {
            let path = self.path.display();
            io::Error::new(error.kind(), format!("{path}: {error}"))
        };
        self.run(script).map_err(named)
    }
}
