//! The script language: lines that drive one switch, with a line of text for
//! what an event or a run of ticks shows.

use std::io::{Result, Write};

use crate::answer::{Answer, Colour, Mode};
use crate::switch::Switch;

const LONGEST_LINE: usize = 2048;
const LONGEST_PACKET: usize = 256;
const PLACE: usize = 24;
const FIRST_SIZE: usize = 48;
const LARGEST_SIZE: usize = 4096;
const FILL: u8 = 0xAA;
static FILLED: [u8; LARGEST_SIZE] = [FILL; LARGEST_SIZE];

/// Runs a script.
///
/// # Panics
///
/// Where the output does not take what is written.
pub fn run(input: &[u8], output: &mut impl Write) {
    let mut player = Player {
        switch: None,
        buffer: FILLED,
        size: FIRST_SIZE,
        output,
    };
    for (index, line) in input.split(|&byte| byte == b'\n').enumerate() {
        // What follows the last newline is a line only if it has bytes; an
        // empty line prints nothing anyway.
        player
            .line(index + 1, line)
            .expect("the output takes every line");
    }
}

enum Line {
    Nothing,
    Start(Vec<u8>),
    Buffer(usize),
    Press(u8),
    Release(u8),
    Ticks(u32),
    Packet(Vec<u8>),
    Restart,
    Dump,
}

/// None where the line does not read.
fn read_line(line: &[u8]) -> Option<Line> {
    if line.len() > LONGEST_LINE {
        return None;
    }
    let line = line.strip_suffix(b"\r").unwrap_or(line);
    if line.first() == Some(&b'#') || line.iter().all(|&byte| byte == b' ' || byte == b'\t') {
        return Some(Line::Nothing);
    }
    match line {
        b"x" => Some(Line::Restart),
        b"d" => Some(Line::Dump),
        b"k -" => Some(Line::Packet(Vec::new())),
        [letter, b' ', argument @ ..] => read_argument(*letter, argument),
        _ => None,
    }
}

fn read_argument(letter: u8, argument: &[u8]) -> Option<Line> {
    match letter {
        b'i' => read_hex(argument).map(Line::Start),
        b'b' => read_number(argument, LARGEST_SIZE as u32).map(|size| Line::Buffer(size as usize)),
        b'p' => read_number(argument, 255).map(|contact| Line::Press(contact as u8)),
        b'r' => read_number(argument, 255).map(|contact| Line::Release(contact as u8)),
        b't' => read_number(argument, u32::MAX).map(Line::Ticks),
        b'k' => read_hex(argument)
            .filter(|packet| packet.len() <= LONGEST_PACKET)
            .map(Line::Packet),
        _ => None,
    }
}

fn read_number(text: &[u8], highest: u32) -> Option<u32> {
    if text.is_empty() {
        return None;
    }
    let mut number: u32 = 0;
    for &digit in text {
        if !digit.is_ascii_digit() {
            return None;
        }
        number = number.checked_mul(10)?.checked_add((digit - b'0') as u32)?;
    }
    (number <= highest).then_some(number)
}

fn read_hex(text: &[u8]) -> Option<Vec<u8>> {
    if text.is_empty() || !text.len().is_multiple_of(2) {
        return None;
    }
    text.chunks_exact(2)
        .map(|pair| Some(nibble(pair[0])? << 4 | nibble(pair[1])?))
        .collect()
}

fn nibble(digit: u8) -> Option<u8> {
    (digit as char).to_digit(16).map(|value| value as u8)
}

/// All that a line of output says of one event.
#[derive(Clone, Copy, PartialEq)]
struct Shown {
    answer: Answer,
    packets: [[u8; PLACE]; 2],
    spilt: bool,
}

impl Shown {
    /// Takes the packets out of the buffer and fills the buffer again.
    fn take(answer: Answer, buffer: &mut [u8]) -> Shown {
        let filled = &FILLED[..buffer.len()];
        let mut shown = Shown {
            answer,
            packets: [[0; PLACE]; 2],
            spilt: false,
        };
        if answer.count == 0 && buffer == filled {
            return shown;
        }
        for place in 0..answer.count as usize {
            let length = answer.lengths[place] as usize;
            let packet = &mut buffer[place * PLACE..][..length];
            shown.packets[place][..length].copy_from_slice(packet);
            packet.fill(FILL);
        }
        shown.spilt = buffer != filled;
        buffer.fill(FILL);
        shown
    }

    fn write(&self, output: &mut impl Write) -> Result<()> {
        let answer = &self.answer;
        let [first, second] = answer.lengths;
        write!(
            output,
            "{} {} {first} {second} ",
            answer.number, answer.count
        )?;
        write_state(answer, output)?;
        output.write_all(if answer.count == 0 { b" -" } else { b" " })?;
        for place in 0..answer.count as usize {
            if place > 0 {
                output.write_all(b",")?;
            }
            write_hex(
                &self.packets[place][..answer.lengths[place] as usize],
                output,
            )?;
        }
        output.write_all(if self.spilt { b" spilt\n" } else { b"\n" })
    }
}

fn write_state(answer: &Answer, output: &mut impl Write) -> Result<()> {
    let colour = match answer.colour {
        Colour::Black => "black",
        Colour::Red => "red",
        Colour::Green => "green",
        Colour::Orange => "orange",
    };
    let mode = match answer.mode {
        Mode::Normal => "normal",
        Mode::Setup => "setup",
        Mode::Factory => "factory",
    };
    write!(output, "{} {} {colour} {mode}", answer.level, answer.output)
}

fn write_hex(bytes: &[u8], output: &mut impl Write) -> Result<()> {
    bytes
        .iter()
        .try_for_each(|byte| write!(output, "{byte:02x}"))
}

struct Player<'a, W: Write> {
    switch: Option<Switch>,
    /// Filled before every event.
    buffer: [u8; LARGEST_SIZE],
    size: usize,
    output: &'a mut W,
}

impl<W: Write> Player<'_, W> {
    fn line(&mut self, number: usize, line: &[u8]) -> Result<()> {
        let Some(line) = read_line(line) else {
            return writeln!(self.output, "? {number}");
        };
        match line {
            Line::Nothing => Ok(()),
            Line::Start(image) => self.start(&image),
            Line::Buffer(size) => {
                self.size = size;
                Ok(())
            }
            Line::Press(contact) => self.single('p', |switch, out| switch.press(contact, out)),
            Line::Release(contact) => self.single('r', |switch, out| switch.release(contact, out)),
            Line::Ticks(count) => self.ticks(count),
            Line::Packet(packet) => self.single('k', |switch, out| switch.receive(&packet, out)),
            Line::Restart => self.single('x', |switch, out| switch.restart(out)),
            Line::Dump => self.dump(),
        }
    }

    fn start(&mut self, image: &[u8]) -> Result<()> {
        match Switch::start(image) {
            Ok((switch, answer)) => {
                self.switch = Some(switch);
                write!(self.output, "i {} ", answer.number)?;
                write_state(&answer, self.output)?;
                writeln!(self.output)
            }
            Err(number) => {
                self.switch = None;
                writeln!(self.output, "i {number}")
            }
        }
    }

    fn single<F>(&mut self, letter: char, event: F) -> Result<()>
    where
        F: FnOnce(&mut Switch, &mut [u8]) -> Answer,
    {
        let Some(switch) = &mut self.switch else {
            return writeln!(self.output, "{letter} none");
        };
        let buffer = &mut self.buffer[..self.size];
        let answer = event(switch, buffer);
        write!(self.output, "{letter} ")?;
        Shown::take(answer, buffer).write(self.output)
    }

    fn ticks(&mut self, count: u32) -> Result<()> {
        if count == 0 {
            return Ok(());
        }
        let Some(switch) = &mut self.switch else {
            return writeln!(self.output, "t none");
        };
        let buffer = &mut self.buffer[..self.size];
        let mut shown = Shown::take(switch.tick(buffer), buffer);
        let mut run: u32 = 1;
        for _ in 1..count {
            let next = Shown::take(switch.tick(buffer), buffer);
            if next == shown {
                run += 1;
                continue;
            }
            write!(self.output, "t*{run} ")?;
            shown.write(self.output)?;
            shown = next;
            run = 1;
        }
        write!(self.output, "t*{run} ")?;
        shown.write(self.output)
    }

    fn dump(&mut self) -> Result<()> {
        let Some(switch) = &self.switch else {
            return writeln!(self.output, "d none");
        };
        self.output.write_all(b"d ")?;
        write_hex(&switch.image(), self.output)?;
        writeln!(self.output)
    }
}
