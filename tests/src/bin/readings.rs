//! Plays the gate's scripts on the reference and on every other reading of the rules, and says which script first tells each
//! apart: `readings REFERENCE FOLDER [LABEL..]`, with the reference's own folder and one for what is built.

use std::path::Path;
use std::process::ExitCode;
use std::sync::atomic::{AtomicUsize, Ordering};
use std::sync::Mutex;
use trials::readings::{readings, sources, Reading, Sources};
use trials::GATE_SCRIPTS;

const WORKERS: usize = 2;

/// What is to be said of a reading; an error where it is not as its file says.
type Verdict = Result<String, String>;

fn main() -> ExitCode {
    let arguments: Vec<String> = std::env::args().skip(1).collect();
    let verdicts = match survey(&arguments) {
        Ok(verdicts) => verdicts,
        Err(error) => {
            eprintln!("readings: {error}");
            return ExitCode::from(2);
        }
    };
    let wrong = verdicts.iter().filter(|verdict| verdict.is_err()).count();
    for verdict in &verdicts {
        match verdict {
            Ok(words) => println!("{words}"),
            Err(words) => println!("WRONG {words}"),
        }
    }
    let all = verdicts.len();
    println!("{all} readings on {GATE_SCRIPTS} scripts, {wrong} wrong");
    ExitCode::from(u8::from(wrong > 0))
}

fn survey(arguments: &[String]) -> Result<Vec<Verdict>, String> {
    let [reference, folder, labels @ ..] = arguments else {
        return Err("usage: readings REFERENCE FOLDER [LABEL..]".into());
    };
    let reference = Path::new(reference);
    let mut wanted = readings(&reference.join("readings"))?;
    for label in labels {
        if !wanted.iter().any(|reading| reading.label == *label) {
            return Err(format!("no reading {label}"));
        }
    }
    if !labels.is_empty() {
        wanted.retain(|reading| labels.contains(&reading.label));
    }
    if wanted.is_empty() {
        return Err("there are no readings".into());
    }
    Ok(all_tried(&wanted, &sources(reference)?, Path::new(folder)))
}

/// The verdicts in the order of the readings.
fn all_tried(readings: &[Reading], sources: &Sources, folder: &Path) -> Vec<Verdict> {
    let next = AtomicUsize::new(0);
    let verdicts = Mutex::new(Vec::new());
    std::thread::scope(|scope| {
        for _ in 0..WORKERS {
            scope.spawn(|| loop {
                let index = next.fetch_add(1, Ordering::Relaxed);
                let Some(reading) = readings.get(index) else {
                    return;
                };
                let verdict = reading.tried(sources, folder, GATE_SCRIPTS);
                verdicts
                    .lock()
                    .expect("no worker panics")
                    .push((index, verdict));
            });
        }
    });
    let mut verdicts = verdicts.into_inner().expect("no worker panics");
    verdicts.sort_by_key(|(index, _)| *index);
    verdicts.into_iter().map(|(_, verdict)| verdict).collect()
}
