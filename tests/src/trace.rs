//! Finds the script line that each line of output belongs to, and counts events in outputs.

/// The lines of a script without their newlines.
pub fn script_lines(script: &[u8]) -> Vec<&[u8]> {
    let mut lines: Vec<&[u8]> = script.split(|&byte| byte == b'\n').collect();
    if lines.last().is_some_and(|line| line.is_empty()) {
        lines.pop();
    }
    lines
}

/// For each line of output the number of its script line, from 1, as far as it can be told.
pub fn origins(script: &[u8], output: &[&str]) -> Vec<usize> {
    let mut origins = Vec::new();
    for (index, line) in script_lines(script).into_iter().enumerate() {
        let number = index + 1;
        let rest = &output[origins.len()..];
        let printed = printed_for(line, number, rest);
        origins.extend(std::iter::repeat_n(number, printed));
    }
    origins
}

/// The events that a line of output stands for.
pub fn events(line: &str) -> u64 {
    if line.ends_with("none") {
        return 0;
    }
    match line.as_bytes().first() {
        Some(b'p' | b'r' | b'k' | b'x') => 1,
        Some(b't') => run_length(line).unwrap_or(0),
        _ => 0,
    }
}

/// The words of an answer, from its number on, with its event's letter.
pub fn answer(line: &str) -> Option<(char, Vec<&str>)> {
    let letter = line.chars().next()?;
    let mut words = line.split(' ');
    words.next()?;
    let words: Vec<&str> = words.collect();
    let is_answer = "prtkxi".contains(letter) && words.first().is_some_and(|word| *word != "none");
    is_answer.then_some((letter, words))
}

/// How many of the lines in `rest` a script line has printed.
fn printed_for(line: &[u8], number: usize, rest: &[&str]) -> usize {
    let Some(next) = rest.first() else {
        return 0;
    };
    if *next == format!("? {number}") {
        return 1;
    }
    match line.first() {
        Some(b'p' | b'r' | b'k' | b'x' | b'd' | b'i') => 1,
        Some(b't') => runs_for(line, rest),
        _ => 0,
    }
}

fn runs_for(line: &[u8], rest: &[&str]) -> usize {
    let digits = line[1..].iter().filter(|byte| byte.is_ascii_digit());
    let ticks = digits.fold(0u64, |sum, digit| {
        sum.saturating_mul(10)
            .saturating_add(u64::from(digit - b'0'))
    });
    let mut left = ticks;
    let mut runs = 0;
    while left > 0 && runs < rest.len() {
        if rest[runs] == "t none" {
            return runs + 1;
        }
        let Some(length) = run_length(rest[runs]) else {
            return runs;
        };
        left = left.saturating_sub(length);
        runs += 1;
    }
    runs
}

fn run_length(line: &str) -> Option<u64> {
    line.strip_prefix("t*")?.split(' ').next()?.parse().ok()
}

#[cfg(test)]
mod tests {
    use super::*;

    #[test]
    fn output_lines_find_their_script_lines() {
        let script = b"# c\nt 5\ni 00\np 1\nt 5\nq\nt 0\nd\n";
        let output = ["t none", "i 0 a", "p 0 a", "t*2 a", "t*3 b", "? 6", "d 00"];
        assert_eq!(origins(script, &output), [2, 3, 4, 5, 5, 6, 8]);
    }

    #[test]
    fn events_are_counted_one_by_one() {
        assert_eq!(events("t*480 0 0 0 0 0 0 red normal -"), 480);
        assert_eq!(events("p 3 0 0 0 0 0 red normal -"), 1);
        assert_eq!(
            events("p none") + events("d 00") + events("? 3") + events("i 1"),
            0
        );
    }

    #[test]
    fn answers_are_told_from_other_lines() {
        assert_eq!(answer("i 1"), Some(('i', vec!["1"])));
        assert_eq!(answer("t none"), None);
        assert_eq!(answer("d 0011"), None);
        assert_eq!(answer("? 3"), None);
    }
}
