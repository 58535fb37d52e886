//! Other readings of the rules, each a small change of the reference, and the script that tells one from the right reading.

use std::collections::BTreeMap;
use std::fs;
use std::io::{Read, Write};
use std::path::{Path, PathBuf};
use std::process::{Child, Command, Stdio};

use crate::generate;
use crate::trace;

/// What stands behind the reference's modules in place of its own program.
const PLAYER: &str = include_str!("readings/player.rs");

/// The reference's files by their path, as `src/lamp.rs`.
pub type Sources = BTreeMap<String, String>;

/// What LABEL.edit says.
#[derive(Debug, PartialEq, Eq)]
pub struct Reading {
    pub label: String,
    /// The rule or decision, a colon, and what is read differently.
    pub sentence: String,
    changes: Vec<Change>,
    /// Why no script can tell it from the right reading.
    pub unseen: Option<String>,
}

#[derive(Debug, PartialEq, Eq)]
struct Change {
    file: String,
    old: String,
    new: Option<String>,
}

/// The first script that tells a reading, and the number of the script's line at which it does.
#[derive(Debug, PartialEq, Eq)]
pub struct Told {
    pub seed: u64,
    pub line: usize,
}

pub fn sources(folder: &Path) -> Result<Sources, String> {
    let mut sources = Sources::new();
    for path in files(&folder.join("src"), "rs")? {
        let name = format!("src/{}", name(&path));
        sources.insert(name, text(&path)?);
    }
    Ok(sources)
}

/// The readings of a folder, by label.
pub fn readings(folder: &Path) -> Result<Vec<Reading>, String> {
    let read = |path: &PathBuf| Reading::parse(name(path).trim_end_matches(".edit"), &text(path)?);
    files(folder, "edit")?.iter().map(read).collect()
}

impl Reading {
    /// A line `# ..` that says the reading, then `file:` with `old:` and `new:` once or more, and perhaps `unseen:`. A line that
    /// begins with a space goes on with the text before it.
    pub fn parse(label: &str, text: &str) -> Result<Reading, String> {
        let wrong = |what: &str| format!("{label}: not an edit: {what}");
        let (first, rest) = text.split_once('\n').unwrap_or((text, ""));
        let sentence = first.strip_prefix("# ");
        let mut reading = Reading {
            label: label.to_string(),
            sentence: sentence
                .ok_or(wrong("no sentence in its first line"))?
                .to_string(),
            changes: Vec::new(),
            unseen: None,
        };
        let mut file = None;
        for (word, said) in entries(rest).ok_or(wrong("a line without its word"))? {
            match (word, reading.changes.last_mut()) {
                ("file", _) => file = Some(said),
                ("old", _) => reading.changes.push(Change {
                    file: file.clone().ok_or(wrong("an old text without its file"))?,
                    old: said,
                    new: None,
                }),
                ("new", Some(change)) if change.new.is_none() => change.new = Some(said),
                ("unseen", _) => reading.unseen = Some(said),
                _ => return Err(wrong(&format!("{word}: {said}"))),
            }
        }
        let whole = |change: &Change| change.new.is_some() && !change.old.is_empty();
        if reading.changes.is_empty() || !reading.changes.iter().all(whole) {
            return Err(wrong("no pair of an old and a new text"));
        }
        Ok(reading)
    }

    /// The sources so changed; each old text has to stand exactly once in what the changes before it left.
    pub fn applied(&self, sources: &Sources) -> Result<Sources, String> {
        let mut sources = sources.clone();
        for Change { file, old, new } in &self.changes {
            let source = sources
                .get_mut(file)
                .ok_or(format!("{}: no file {file}", self.label))?;
            let times = source.matches(old.as_str()).count();
            if times != 1 {
                let label = &self.label;
                return Err(format!("{label}: in {file} {times} times, not once: {old}"));
            }
            *source = source.replace(old, new.as_deref().unwrap_or(""));
        }
        Ok(sources)
    }

    /// Tries the first scripts on it; what is then to be said, an error where the reading is not as its file says.
    pub fn tried(&self, sources: &Sources, folder: &Path, scripts: u64) -> Result<String, String> {
        let label = &self.label;
        let program = self.built(&self.applied(sources)?, &folder.join(label))?;
        let told = Other::start(&program)
            .and_then(|mut other| other.told(scripts))
            .map_err(|error| format!("{label}: {error}"))?;
        match (told, &self.unseen) {
            (Some(Told { seed, line }), None) => {
                Ok(format!("{label}: told by seed {seed}, line {line}"))
            }
            (None, Some(_)) => Ok(format!("{label}: not to be seen, and not seen")),
            (Some(Told { seed, line }), Some(_)) => Err(format!(
                "{label}: told by seed {seed}, line {line}, where its file says that no script can"
            )),
            (None, None) => Err(format!(
                "{label}: none of {scripts} scripts tells it apart ({})",
                self.sentence
            )),
        }
    }

    /// The reference so changed, as a program. One that has to play every script is worth optimising; of the others the
    /// building takes longer than the playing, and checks of overflow come with it.
    fn built(&self, changed: &Sources, folder: &Path) -> Result<PathBuf, String> {
        let failed = |error: std::io::Error| format!("{}: {error}", self.label);
        fs::create_dir_all(folder.join("src")).map_err(failed)?;
        for (file, source) in changed {
            fs::write(folder.join(file), source).map_err(failed)?;
        }
        let root = folder.join("src/main.rs");
        let modules = changed.get("src/lib.rs").ok_or("no file src/lib.rs")?;
        fs::write(&root, format!("{modules}{PLAYER}")).map_err(failed)?;
        let program = folder.join("program");
        let level = if self.unseen.is_some() { 2 } else { 0 };
        let output = Command::new("rustc")
            .args(["--edition=2021", "--cap-lints=allow", "--crate-name=other"])
            .args(["-Cprefer-dynamic", "-Crpath", "-Ccodegen-units=1"])
            .arg(format!("-Copt-level={level}"))
            .args([root.as_os_str(), "-o".as_ref(), program.as_os_str()])
            .output()
            .map_err(failed)?;
        if output.status.success() {
            return Ok(program);
        }
        let complaint = String::from_utf8_lossy(&output.stderr);
        let first = complaint.lines().find(|line| line.starts_with("error"));
        let first = first.unwrap_or("no word of why");
        Err(format!("{}: does not compile: {first}", self.label))
    }
}

/// Each word before a colon at the beginning of a line, and the text behind it; none where a line has no such word.
fn entries(text: &str) -> Option<Vec<(&str, String)>> {
    let mut entries: Vec<(&str, String)> = Vec::new();
    for line in text.lines() {
        if line.starts_with(' ') {
            let (_, said) = entries.last_mut()?;
            said.push('\n');
            said.push_str(line);
        } else {
            let (word, said) = line.split_once(':')?;
            let said = said.strip_prefix(' ').unwrap_or(said);
            entries.push((word, said.to_string()));
        }
    }
    Some(entries)
}

/// A changed reference at work.
struct Other {
    child: Child,
}

impl Other {
    fn start(program: &Path) -> Result<Other, String> {
        let child = Command::new(program)
            .stdin(Stdio::piped())
            .stdout(Stdio::piped())
            .stderr(Stdio::null())
            .spawn()
            .map_err(|error| error.to_string())?;
        Ok(Other { child })
    }

    fn told(&mut self, scripts: u64) -> Result<Option<Told>, String> {
        for seed in 0..scripts {
            let script = generate::script(seed);
            let mut right = Vec::new();
            reference::script::run(&script, &mut right);
            let other = self
                .play(&script)
                .map_err(|error| format!("it fails in the script of seed {seed}: {error}"))?;
            if right != other {
                let line = first_difference(&script, &right, &other);
                return Ok(Some(Told { seed, line }));
            }
        }
        Ok(None)
    }

    fn play(&mut self, script: &[u8]) -> std::io::Result<Vec<u8>> {
        let input = self.child.stdin.as_mut().expect("it is piped");
        input.write_all(&(script.len() as u64).to_le_bytes())?;
        input.write_all(script)?;
        input.flush()?;
        let output = self.child.stdout.as_mut().expect("it is piped");
        let mut length = [0; 8];
        output.read_exact(&mut length)?;
        let mut shown = vec![0; u64::from_le_bytes(length) as usize];
        output.read_exact(&mut shown)?;
        Ok(shown)
    }
}

impl Drop for Other {
    fn drop(&mut self) {
        // It ends with its input; one that has ended already is no loss.
        drop(self.child.stdin.take());
        let _ = self.child.wait();
    }
}

/// The script's line that is answered differently.
fn first_difference(script: &[u8], right: &[u8], other: &[u8]) -> usize {
    let right = String::from_utf8_lossy(right);
    let other = String::from_utf8_lossy(other);
    let shown: Vec<&str> = right.lines().collect();
    let same = right.lines().zip(other.lines());
    let index = same.take_while(|(one, two)| one == two).count();
    let origins = trace::origins(script, &shown);
    origins
        .get(index)
        .or(origins.last())
        .copied()
        .unwrap_or_default()
}

/// The files of a folder with that extension, by name.
fn files(folder: &Path, extension: &str) -> Result<Vec<PathBuf>, String> {
    let failed = |error: std::io::Error| format!("{}: {error}", folder.display());
    let mut files = Vec::new();
    for entry in fs::read_dir(folder).map_err(failed)? {
        let path = entry.map_err(failed)?.path();
        if path.extension().is_some_and(|other| other == extension) {
            files.push(path);
        }
    }
    files.sort();
    Ok(files)
}

fn name(path: &Path) -> String {
    let name = path.file_name().unwrap_or_default();
    name.to_string_lossy().into_owned()
}

fn text(path: &Path) -> Result<String, String> {
    fs::read_to_string(path).map_err(|error| format!("{}: {error}", path.display()))
}
