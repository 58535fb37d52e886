//! `bench time` prints the time of each case, the proved switch beside the reference; `bench count SIDE CASE N` plays N events of
//! one case, for a counter of instructions to watch, and `bench ready SIDE CASE N` does all of that but the events; `bench cases`
//! lists the cases by their numbers, and `bench size` prints the bytes of state.

mod play;

use play::{play, ready, Case, Player, CASES};

/// Events to a measurement, a multiple of what one press takes before Hold and of a batch; and how many measurements, of which the
/// shortest counts: the machine may be busy with other work.
const EVENTS: u64 = 17_000;
const ROUNDS: usize = 400;

fn main() {
    let words: Vec<String> = std::env::args().skip(1).collect();
    let words: Vec<&str> = words.iter().map(String::as_str).collect();
    match words[..] {
        ["time"] => times(),
        ["count", side, case, count] => counted(side, case, count, true),
        ["ready", side, case, count] => counted(side, case, count, false),
        ["cases"] => cases(),
        ["size"] => sizes(),
        _ => usage(),
    }
}

fn usage() -> ! {
    eprintln!(
        "bench time | bench count|ready proved|reference CASE EVENTS | bench cases | bench size"
    );
    std::process::exit(2);
}

fn cases() {
    for (number, (_, name)) in CASES.iter().enumerate() {
        println!("{number};{name}");
    }
}

fn times() {
    for (number, (case, name)) in CASES.iter().enumerate() {
        let (proved, reference) = both(*case);
        println!(
            "{number};{name};{proved:.2};{reference:.2};{:.4}",
            proved / reference
        );
    }
}

/// Nanoseconds to an event of either switch, measured in turns.
fn both(case: Case) -> (f64, f64) {
    let proved: melszondru::Switch = ready(case);
    let reference: reference::Switch = ready(case);
    let mut best = (f64::MAX, f64::MAX);
    for _ in 0..ROUNDS {
        best.0 = best.0.min(timed(case, &proved));
        best.1 = best.1.min(timed(case, &reference));
    }
    best
}

fn timed<P: Player>(case: Case, from: &P) -> f64 {
    play(case, from, EVENTS, true).as_nanos() as f64 / EVENTS as f64
}

fn counted(side: &str, case: &str, count: &str, act: bool) {
    let (Ok(number), Ok(count)) = (case.parse::<usize>(), count.parse::<u64>()) else {
        usage();
    };
    let Some((case, _)) = CASES.get(number) else {
        usage();
    };
    match side {
        "proved" => play(*case, &ready::<melszondru::Switch>(*case), count, act),
        "reference" => play(*case, &ready::<reference::Switch>(*case), count, act),
        _ => usage(),
    };
}

fn sizes() {
    println!("proved {}", std::mem::size_of::<melszondru::Switch>());
    println!("reference {}", std::mem::size_of::<reference::Switch>());
}
