//! Shows how often each kind of answer comes out of the seeded scripts:
//! `coverage N REFERENCE [FIRST_SEED]`.

use std::collections::BTreeMap;
use std::process::ExitCode;
use trials::generate;
use trials::programs::{count, first_seed, present, Scratch};
use trials::trace;

const LETTERS: [char; 6] = ['i', 'p', 'r', 't', 'k', 'x'];
const MODES: [&str; 3] = ["normal", "setup", "factory"];
const COLOURS: [&str; 4] = ["black", "red", "green", "orange"];
const COUNTS: [&str; 3] = ["0", "1", "2"];

type Counts<K> = BTreeMap<K, u64>;

#[derive(Default)]
struct Seen {
    numbers: Counts<(u8, char)>,
    modes: Counts<String>,
    colours: Counts<String>,
    counts: Counts<String>,
    changes: Counts<(String, String, char)>,
    commands: Counts<(u8, u8)>,
    spilt: u64,
}

impl Seen {
    /// Notes a script's output; ticks that print alike are one answer.
    fn note(&mut self, script: &[u8], output: &str) {
        let output: Vec<&str> = output.lines().collect();
        let lines = trace::script_lines(script);
        let mut mode = String::new();
        for (line, origin) in output.iter().zip(trace::origins(script, &output)) {
            let Some((letter, words)) = trace::answer(line) else {
                continue;
            };
            let number = words[0].parse().unwrap_or(255);
            self.note_answer(letter, number, &words);
            if let Some(now) = words.iter().find(|word| MODES.contains(word)) {
                if letter != 'i' && **now != mode {
                    *self
                        .changes
                        .entry((mode, now.to_string(), letter))
                        .or_default() += 1;
                }
                mode = now.to_string();
            }
            if let Some(command) = command(lines[origin - 1]) {
                *self.commands.entry((command, number)).or_default() += 1;
            }
        }
    }

    fn note_answer(&mut self, letter: char, number: u8, words: &[&str]) {
        *self.numbers.entry((number, letter)).or_default() += 1;
        for word in words {
            if MODES.contains(word) {
                *self.modes.entry(word.to_string()).or_default() += 1;
            } else if COLOURS.contains(word) {
                *self.colours.entry(word.to_string()).or_default() += 1;
            }
        }
        if letter != 'i' {
            *self.counts.entry(words[1].to_string()).or_default() += 1;
        }
        self.spilt += u64::from(words.last() == Some(&"spilt"));
    }

    fn print(&self) {
        println!(
            "number{}",
            LETTERS.map(|letter| format!("{letter:>9}")).concat()
        );
        for number in 0..=14 {
            let cells = LETTERS.map(|letter| format!("{:9}", of(&self.numbers, &(number, letter))));
            println!("{number:6}{}", cells.concat());
        }
        print_all("modes", &self.modes);
        print_all("colours", &self.colours);
        print_all("packets sent", &self.counts);
        println!("spilt: {}", self.spilt);
        for ((from, to, letter), times) in &self.changes {
            println!("from {from} to {to} by {letter}: {times}");
        }
        println!("packets of 7 to 24 bytes, by byte 5 (the command) and number");
        for command in 0..=255 {
            let numbers = self.commands.range((command, 0)..=(command, 255));
            let cells: Vec<String> = numbers
                .map(|((_, number), times)| format!("{number}:{times}"))
                .collect();
            if cells.len() > 3 {
                println!("  {command:02x}  {}", cells.join(" "));
            }
        }
    }

    /// What should have been seen and was not.
    fn missing(&self) -> Vec<String> {
        let mut missing = Vec::new();
        for number in (0..=14).filter(|number| *number != 1) {
            if LETTERS[1..]
                .iter()
                .all(|&letter| of(&self.numbers, &(number, letter)) == 0)
            {
                missing.push(format!("number {number}"));
            }
        }
        let words = [
            (&MODES[..], &self.modes),
            (&COLOURS, &self.colours),
            (&COUNTS, &self.counts),
        ];
        for (wanted, seen) in words {
            let unseen = wanted.iter().filter(|word| !seen.contains_key(**word));
            missing.extend(unseen.map(|word| word.to_string()));
        }
        missing
    }
}

fn main() -> ExitCode {
    let arguments: Vec<String> = std::env::args().skip(1).collect();
    let seen = match survey(&arguments) {
        Ok(seen) => seen,
        Err(error) => {
            eprintln!("coverage: {error}");
            return ExitCode::from(2);
        }
    };
    seen.print();
    let missing = seen.missing();
    if missing.is_empty() {
        return ExitCode::SUCCESS;
    }
    println!("never seen: {}", missing.join(", "));
    ExitCode::FAILURE
}

fn survey(arguments: &[String]) -> Result<Seen, String> {
    let [scripts, reference, rest @ ..] = arguments else {
        return Err("usage: coverage N REFERENCE [FIRST_SEED]".into());
    };
    let (scripts, reference) = (count(scripts)?, present(reference)?);
    let first = first_seed(rest.first())?;
    let scratch = Scratch::new("coverage");
    let mut seen = Seen::default();
    for number in 0..scripts {
        let script = generate::script(first.wrapping_add(number));
        scratch.write(&script)?;
        seen.note(&script, &scratch.play(&reference)?);
    }
    Ok(seen)
}

/// The command byte of a `k` line of 7 to 24 bytes.
fn command(line: &[u8]) -> Option<u8> {
    let hex = line.trim_ascii_end().strip_prefix(b"k ")?;
    if !(14..=48).contains(&hex.len()) {
        return None;
    }
    u8::from_str_radix(std::str::from_utf8(hex.get(10..12)?).ok()?, 16).ok()
}

fn of<K: Ord>(counts: &Counts<K>, key: &K) -> u64 {
    counts.get(key).copied().unwrap_or(0)
}

fn print_all(title: &str, counts: &Counts<String>) {
    let cells: Vec<String> = counts
        .iter()
        .map(|(word, times)| format!("{word} {times}"))
        .collect();
    println!("{title}: {}", cells.join(", "));
}
