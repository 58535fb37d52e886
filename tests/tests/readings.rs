//! Checks of what tries the other readings: a wrong edit is reported as what it is, and each decision that shows has a reading.

use std::fs;
use std::path::{Path, PathBuf};
use std::process::Command;
use trials::readings::{readings, sources, Reading, Sources};

/// Enough to tell a level that is set wrongly.
const SCRIPTS: u64 = 20;

fn reference() -> PathBuf {
    Path::new(env!("CARGO_MANIFEST_DIR")).join("../reference")
}

fn right() -> Sources {
    sources(&reference()).unwrap()
}

/// What is said of an edit of the dimmer, which has to be an error.
fn error(label: &str, old: &str, new: &str, rest: &str) -> String {
    let text = format!("# a reading\nfile: src/dimmer.rs\nold: {old}\nnew: {new}\n{rest}");
    let reading = Reading::parse(label, &text).unwrap();
    let folder = Path::new(env!("CARGO_TARGET_TMPDIR"));
    reading.tried(&right(), folder, SCRIPTS).unwrap_err()
}

#[test]
fn an_edit_has_a_sentence_a_file_and_pairs() {
    let refused = |text| Reading::parse("label", text).unwrap_err();
    assert!(refused("file: a\nold: b\nnew: c\n").contains("no sentence"));
    assert!(refused("# s\nold: b\nnew: c\n").contains("without its file"));
    assert!(refused("# s\nfile: a\nold: b\n").contains("no pair"));
    assert!(refused("# s\nfile: a\n").contains("no pair"));
    assert!(refused("# s\nfile: a\nnew: c\n").contains("new: c"));
    assert!(refused("# s\nfile: a\nold: b\nnew: c\nnew: d\n").contains("new: d"));
    assert!(refused("# s\nfile: a\nold: b\nnew: c\nsaid: d\n").contains("said: d"));
    assert!(refused("# s\n goes on\n").contains("without its word"));
    assert!(refused("# s\nfile: a\nold: b\nnew\n").contains("without its word"));
}

#[test]
fn an_old_text_stands_once() {
    let words = error("missing", "no such text", "", "");
    assert!(words.contains("0 times, not once"), "{words}");
    let words = error("twice", "Motion::Idle", "Motion::Idle", "");
    assert!(words.contains("times, not once"), "{words}");
}

#[test]
fn a_text_may_have_lines() {
    let text = "# s\nfile: a\nold: b\n  c\nnew: d\n e\n";
    let changed = Reading::parse("label", text)
        .unwrap()
        .applied(&Sources::from([("a".into(), "a b\n  c\n".into())]))
        .unwrap();
    assert_eq!(changed["a"], "a d\n e\n");
}

#[test]
fn a_change_that_does_not_compile_is_none() {
    let words = error("broken", "2 * percent", "2 * percents", "");
    assert!(words.contains("does not compile: error"), "{words}");
}

#[test]
fn a_change_that_fails_is_none() {
    let words = error("failing", "2 * percent", "panic!()", "");
    assert!(words.contains("fails in the script of seed"), "{words}");
}

#[test]
fn a_reading_is_told_apart_or_cannot_be() {
    let words = error("same", "2 * percent", "percent * 2", "");
    assert!(words.contains("none of 20 scripts"), "{words}");
    let words = error("seen", "2 * percent", "percent", "unseen: no reason");
    assert!(words.contains("where its file says"), "{words}");
}

/// Status and words of the command over a reference with these readings.
fn command(name: &str, edits: &[(&str, &str)]) -> (Option<i32>, String) {
    let folder = Path::new(env!("CARGO_TARGET_TMPDIR")).join(name);
    for part in ["src", "readings"] {
        fs::create_dir_all(folder.join(part)).unwrap();
    }
    for (file, source) in right() {
        fs::write(folder.join(file), source).unwrap();
    }
    for (label, old) in edits {
        let text = format!("# a reading\nfile: src/dimmer.rs\nold: {old}\nnew: percent\n");
        fs::write(folder.join(format!("readings/{label}.edit")), text).unwrap();
    }
    let output = Command::new(env!("CARGO_BIN_EXE_readings"))
        .args([&folder, &folder.join("built")])
        .output()
        .unwrap();
    let words = String::from_utf8(output.stdout).unwrap();
    (output.status.code(), words)
}

#[test]
fn the_command_fails_where_one_reading_is_wrong() {
    let good = ("good", "2 * percent");
    let (status, words) = command("right", &[good]);
    assert_eq!(status, Some(0), "{words}");
    assert!(words.starts_with("good: told by seed "), "{words}");
    let (status, words) = command("wrong", &[good, ("bad", "3 * percent")]);
    assert_eq!(status, Some(1), "{words}");
    assert!(
        words.starts_with("WRONG bad: in src/dimmer.rs 0 times"),
        "{words}"
    );
    assert!(words.ends_with(" scripts, 1 wrong\n"), "{words}");
}

#[test]
fn every_old_text_of_the_readings_stands_once() {
    let readings = readings(&reference().join("readings")).unwrap();
    let right = right();
    let wrong = readings.iter().map(|reading| reading.applied(&right));
    let wrong: Vec<String> = wrong.filter_map(Result::err).collect();
    assert!(wrong.is_empty(), "{wrong:#?}");
}

#[test]
fn every_decision_that_shows_has_a_reading() {
    let readings = readings(&reference().join("readings")).unwrap();
    for reading in &readings {
        let rule = reading.sentence.split_once(": ").map_or("", |pair| pair.0);
        let named = ["01, ", "decision ", "docs/SCRIPT.md"];
        let names = named.iter().any(|name| rule.starts_with(name));
        assert!(names, "{} names no rule", reading.label);
    }
    // 25 is about what the product does not have.
    for decision in (1..=39).filter(|decision| *decision != 25) {
        let start = format!("decision {decision}: ");
        let read = |reading: &Reading| reading.sentence.starts_with(&start);
        assert!(readings.iter().any(read), "no reading of {start}");
    }
}
