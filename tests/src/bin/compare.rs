//! Plays seeded scripts on two programs and compares what they print, line by line:
//! `compare DRIVE REFERENCE [N [FIRST_SEED]]`; without N as many as the gate plays.

use std::path::PathBuf;
use std::process::ExitCode;
use std::sync::atomic::{AtomicU64, Ordering};
use std::sync::Mutex;
use trials::generate;
use trials::programs::{count, first_seed, present, Scratch};
use trials::trace;
use trials::GATE_SCRIPTS;

const WORKERS: usize = 2;
/// Script lines shown before a difference.
const SHOWN: usize = 8;
/// Bytes shown of a line.
const WIDTH: usize = 160;

struct Job {
    scripts: u64,
    drive: PathBuf,
    reference: PathBuf,
    first: u64,
}

#[derive(Default)]
struct Tally {
    lines: u64,
    events: u64,
    /// The lowest seed whose outputs differ, and how.
    difference: Option<(u64, String)>,
}

fn main() -> ExitCode {
    let arguments: Vec<String> = std::env::args().skip(1).collect();
    let job = match job(&arguments) {
        Ok(job) => job,
        Err(error) => {
            eprintln!("compare: {error}");
            return ExitCode::from(2);
        }
    };
    let tally = compare(&job);
    match tally.difference {
        Some((seed, difference)) => {
            println!("seed {seed}: {difference}");
            ExitCode::FAILURE
        }
        None => {
            let Tally { lines, events, .. } = tally;
            println!(
                "{} scripts, {lines} lines of output, {events} events, equal",
                job.scripts
            );
            ExitCode::SUCCESS
        }
    }
}

fn job(arguments: &[String]) -> Result<Job, String> {
    let [drive, reference, rest @ ..] = arguments else {
        return Err("usage: compare DRIVE REFERENCE [N [FIRST_SEED]]".into());
    };
    if rest.len() > 2 {
        return Err("more than one first seed".into());
    }
    Ok(Job {
        scripts: rest.first().map_or(Ok(GATE_SCRIPTS), |text| count(text))?,
        drive: present(drive)?,
        reference: present(reference)?,
        first: first_seed(rest.get(1))?,
    })
}

fn compare(job: &Job) -> Tally {
    let next = AtomicU64::new(0);
    let tally = Mutex::new(Tally::default());
    std::thread::scope(|scope| {
        for worker in 0..WORKERS {
            let (next, tally) = (&next, &tally);
            scope.spawn(move || work(job, worker, next, tally));
        }
    });
    tally.into_inner().expect("no worker panics")
}

/// Takes seeds in rising order until they are used up or a difference is found.
fn work(job: &Job, worker: usize, next: &AtomicU64, tally: &Mutex<Tally>) {
    let scratch = Scratch::new(&format!("compare-{worker}"));
    loop {
        let number = next.fetch_add(1, Ordering::Relaxed);
        let found = tally.lock().expect("no worker panics").difference.is_some();
        if number >= job.scripts || found {
            return;
        }
        let seed = job.first.wrapping_add(number);
        let outcome = trial(job, seed, &scratch);
        let mut tally = tally.lock().expect("no worker panics");
        match outcome {
            Ok((lines, events)) => {
                tally.lines += lines;
                tally.events += events;
            }
            Err(difference) => {
                if tally
                    .difference
                    .as_ref()
                    .is_none_or(|(other, _)| seed < *other)
                {
                    tally.difference = Some((seed, difference));
                }
            }
        }
    }
}

/// Lines and events of a script on which the programs agree, or how they differ.
fn trial(job: &Job, seed: u64, scratch: &Scratch) -> Result<(u64, u64), String> {
    let script = generate::script(seed);
    scratch.write(&script)?;
    let driven = scratch.play(&job.drive)?;
    let referred = scratch.play(&job.reference)?;
    let driven: Vec<&str> = driven.split('\n').collect();
    let referred: Vec<&str> = referred.split('\n').collect();
    let length = driven.len().max(referred.len());
    match (0..length).find(|&index| driven.get(index) != referred.get(index)) {
        Some(index) => Err(describe(&script, index, &driven, &referred)),
        None => {
            let events = referred.iter().map(|line| trace::events(line)).sum();
            Ok((length as u64 - 1, events))
        }
    }
}

fn describe(script: &[u8], index: usize, driven: &[&str], referred: &[&str]) -> String {
    let show = |lines: &[&str]| match lines.get(index) {
        Some(line) if index + 1 < lines.len() || !line.is_empty() => cut(line.as_bytes()),
        _ => "(ended)".into(),
    };
    let mut text = format!("output line {}\n", index + 1);
    text += &format!(
        "  drive:     {}\n  reference: {}\n",
        show(driven),
        show(referred)
    );
    let origins = trace::origins(script, referred);
    let Some(&last) = origins.get(index).or(origins.last()) else {
        return text + "  before any script line";
    };
    text += "  script lines that led to it:\n";
    let lines = trace::script_lines(script);
    for number in last.saturating_sub(SHOWN - 1).max(1)..=last {
        text += &format!("  {number:6}  {}\n", cut(lines[number - 1]));
    }
    if index > 0 {
        text += &format!(
            "  output before it: {}",
            cut(referred[index - 1].as_bytes())
        );
    }
    text
}

/// A line short enough to show, on one line.
fn cut(line: &[u8]) -> String {
    let start = String::from_utf8_lossy(&line[..line.len().min(WIDTH)])
        .escape_debug()
        .to_string();
    if line.len() > WIDTH {
        format!("{start}... ({} bytes)", line.len())
    } else {
        start
    }
}
