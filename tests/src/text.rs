//! Writes a plan out as a script, with the oddities that only a text can hold.

use crate::generate::{Event, Plan};
use crate::random::Random;

/// Lines that do not read.
const UNREADABLE: [&[u8]; 40] = [
    b"q",
    b"p",
    b"p ",
    b"p 256",
    b"p -1",
    b"p +1",
    b"p  1",
    b" p 1",
    b"p 1 ",
    b"p\t1",
    b"P 1",
    b"p1",
    b"p 0x1",
    b"r 999",
    b"r",
    b"t",
    b"t 4294967296",
    b"t 1.5",
    b"t 99999999999999999999999",
    b"b 4097",
    b"b",
    b"b -",
    b"k",
    b"k 0",
    b"k 070",
    b"k zz",
    b"k --",
    b"k - ",
    b"k 07 00",
    b"x 1",
    b"x ",
    b"xx",
    b"d 0",
    b"dd",
    b"i",
    b"i -",
    b"i 0",
    b" # no comment",
    b"x\r\r",
    b"\xFF\xFE\x00",
];

const PASSED_OVER: [&[u8]; 9] = [
    b"",
    b" ",
    b"\t",
    b"  \t ",
    b"#",
    b"# a comment",
    b"#p 0",
    b"# \xC3\x28",
    b"t 0",
];

struct Writer {
    random: Random,
    text: Vec<u8>,
    every_cr: bool,
}

pub fn write(plan: &Plan, seed: u64) -> Vec<u8> {
    let random = Random::new(seed ^ 0x5C21_70AD_D1E5_0000);
    let mut writer = Writer {
        random,
        text: Vec::new(),
        every_cr: false,
    };
    writer.every_cr = writer.random.chance(12);
    if writer.random.chance(15) {
        writer.too_early();
    }
    writer.first_start(&plan.image);
    let anew = writer.second_start(plan.events.len());
    for (number, event) in plan.events.iter().enumerate() {
        if anew == Some(number) {
            writer.start_anew(&plan.image);
        }
        if writer.random.chance(4) {
            writer.oddity();
        }
        writer.event(event);
    }
    if writer.random.chance(10) {
        writer.text.pop();
    }
    writer.text
}

impl Writer {
    fn line(&mut self, line: &[u8]) {
        self.text.extend(line);
        if self.every_cr || self.random.chance(1) {
            self.text.push(b'\r');
        }
        self.text.push(b'\n');
    }

    fn event(&mut self, event: &Event) {
        let line = match event {
            Event::Room(bytes) => self.numbered('b', *bytes as u64),
            Event::Press(contact) => self.numbered('p', u64::from(*contact)),
            Event::Release(contact) => self.numbered('r', u64::from(*contact)),
            Event::Ticks(ticks) => self.numbered('t', u64::from(*ticks)),
            Event::Packet(bytes) if bytes.is_empty() => "k -".into(),
            Event::Packet(bytes) => format!("k {}", self.hex(bytes)),
            Event::Restart => "x".into(),
            Event::Dump => "d".into(),
        };
        self.line(line.as_bytes());
    }

    fn numbered(&mut self, letter: char, number: u64) -> String {
        match self.random.below(60) {
            0 => format!("{letter} {number:04}"),
            1 => format!("{letter} {number:040}"),
            _ => format!("{letter} {number}"),
        }
    }

    fn hex(&mut self, bytes: &[u8]) -> String {
        let case = self.random.below(5);
        let mut text = String::new();
        for byte in bytes {
            let upper = case == 0 || (case == 1 && self.random.chance(50));
            text += &if upper {
                format!("{byte:02X}")
            } else {
                format!("{byte:02x}")
            };
        }
        text
    }

    fn image(&mut self, image: &[u8]) {
        let line = format!("i {}", self.hex(image));
        self.line(line.as_bytes());
    }

    /// The start takes no buffer, so a short one does not keep it from anything.
    fn first_start(&mut self, image: &[u8]) {
        let short = self.random.chance(10);
        if short {
            self.line(b"b 47");
        }
        self.image(image);
        if short {
            self.line(b"b 48");
        }
    }

    /// Events before any start, and perhaps a start that is refused.
    fn too_early(&mut self) {
        if self.random.chance(40) {
            self.wrong_image();
        }
        let early: [&[u8]; 9] = [
            b"p 0",
            b"r 1",
            b"t 5",
            b"t 0",
            b"k -",
            b"k 070001050930ba",
            b"x",
            b"d",
            b"p 9",
        ];
        for _ in 0..self.random.between(1, 6) {
            let line = self.random.pick(&early);
            self.line(line);
        }
    }

    /// Where a second start goes, if there is one: late, as it undoes what was done.
    fn second_start(&mut self, events: usize) -> Option<usize> {
        let late = events - 1 - self.random.index(events / 4);
        self.random.chance(10).then_some(late)
    }

    fn start_anew(&mut self, image: &[u8]) {
        if self.random.chance(60) {
            self.wrong_image();
            for event in [
                Event::Press(0),
                Event::Ticks(3),
                Event::Packet(Vec::new()),
                Event::Dump,
            ] {
                self.event(&event);
            }
        }
        if self.random.chance(80) {
            self.image(image);
        }
    }

    fn wrong_image(&mut self) {
        let count = self.random.pick(&[1, 2, 128, 255, 257, 512, 1023]);
        let bytes = self.random.bytes(count);
        self.image(&bytes);
    }

    /// A line that changes nothing.
    fn oddity(&mut self) {
        match self.random.below(10) {
            0..=4 => {
                let line = self.random.pick(&PASSED_OVER);
                self.line(line);
            }
            5..=7 => {
                let line = self.random.pick(&UNREADABLE);
                self.line(line);
            }
            8 => self.long_packet(),
            _ => self.long_line(),
        }
    }

    /// A packet of more bytes than one can have.
    fn long_packet(&mut self) {
        let count = self.random.pick(&[257, 300, 1023]);
        let bytes = self.random.bytes(count);
        let line = format!("k {}", self.hex(&bytes));
        self.line(line.as_bytes());
    }

    /// A comment, blanks or a number about as long as a line may be, its CR counted.
    fn long_line(&mut self) {
        let length = self
            .random
            .pick(&[2046, 2047, 2048, 2048, 2049, 2050, 5000]);
        let line = match self.random.below(4) {
            0 => vec![b' '; length],
            1 => [b"t ".as_slice(), &vec![b'0'; length - 2]].concat(),
            2 => [b"p ".as_slice(), &vec![b'1'; length - 2]].concat(),
            _ => [b"#".as_slice(), &vec![b'x'; length - 1]].concat(),
        };
        self.text.extend(line);
        let end: &[u8] = if self.random.chance(50) {
            b"\r\n"
        } else {
            b"\n"
        };
        self.text.extend(end);
    }
}
