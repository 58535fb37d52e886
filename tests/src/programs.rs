//! Runs the programs that play scripts and collects what they print.

use std::fs::{self, File};
use std::path::{Path, PathBuf};
use std::process::{Command, Output, Stdio};

/// A script in a file of its own, which goes when this does.
pub struct Scratch {
    path: PathBuf,
}

impl Scratch {
    /// `name` tells the scripts of one process apart.
    pub fn new(name: &str) -> Scratch {
        let file = format!("trials-{}-{name}.txt", std::process::id());
        Scratch {
            path: std::env::temp_dir().join(file),
        }
    }

    pub fn write(&self, script: &[u8]) -> Result<(), String> {
        fs::write(&self.path, script).map_err(|error| format!("{}: {error}", self.path.display()))
    }

    /// What `program` prints, given the script as its argument and on its standard input.
    pub fn play(&self, program: &Path) -> Result<String, String> {
        let failed = |error: std::io::Error| format!("{}: {error}", program.display());
        let input = File::open(&self.path).map_err(failed)?;
        let mut command = Command::new(program);
        command.arg(&self.path).stdin(Stdio::from(input));
        let output = command.output().map_err(failed)?;
        if !output.status.success() {
            return Err(format!("{}: {}", program.display(), failure(&output)));
        }
        Ok(String::from_utf8_lossy(&output.stdout).into_owned())
    }
}

impl Drop for Scratch {
    fn drop(&mut self) {
        // A script that was never written is no loss.
        let _ = fs::remove_file(&self.path);
    }
}

/// How a program failed: its status, how far it came and the first it said of it.
fn failure(output: &Output) -> String {
    let printed = output.stdout.iter().filter(|byte| **byte == b'\n').count();
    let complaint = String::from_utf8_lossy(&output.stderr);
    let complaint = complaint
        .lines()
        .find(|line| !line.is_empty())
        .unwrap_or("no word of why");
    format!(
        "{} after {printed} lines of output: {complaint}",
        output.status
    )
}

/// The path of a program that is there, in a form that no search path changes.
pub fn present(path: &str) -> Result<PathBuf, String> {
    let full = fs::canonicalize(path).map_err(|error| format!("{path}: {error}"))?;
    if full.is_file() {
        Ok(full)
    } else {
        Err(format!("{path}: not a program"))
    }
}

/// A count above 0.
pub fn count(text: &str) -> Result<u64, String> {
    match text.parse() {
        Ok(0) | Err(_) => Err(format!("{text}: not a count of scripts above 0")),
        Ok(count) => Ok(count),
    }
}

/// The seed to begin with, 0 where none is given.
pub fn first_seed(text: Option<&String>) -> Result<u64, String> {
    let Some(text) = text else {
        return Ok(0);
    };
    text.parse().map_err(|_| format!("{text}: not a seed"))
}
