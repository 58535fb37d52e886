//! The lamp: version blinks, mode blinks, the blink of the diagnostic rule,
//! and which colour they leave to show.

use crate::answer::{Colour, Mode};
use crate::registers::{Registers, LED_OPTIONS, VERSION};

const HALF: u8 = 60;
const WHOLE: u8 = 120;
const VERSION_TICKS: u16 = 480;
const BLINK_TICKS: u8 = 30;

const DIAGNOSTIC: u8 = 0x80;
const LEVEL_COLOURS: [Colour; 4] = [Colour::Black, Colour::Red, Colour::Green, Colour::Orange];

#[derive(Clone, Debug)]
pub struct Lamp {
    version_left: u16,
    /// Ticks since the mode was entered, modulo 120.
    phase: u8,
    blink_left: u8,
    blink: Colour,
}

impl Lamp {
    pub fn new() -> Lamp {
        Lamp {
            version_left: VERSION_TICKS,
            phase: 0,
            blink_left: 0,
            blink: Colour::Black,
        }
    }

    /// The mode's blinks begin anew (01, Lamp, start, factory values, 2).
    pub fn enter_mode(&mut self) {
        self.phase = 0;
    }

    /// An older blink is forgotten.
    pub fn start_blink(&mut self, colour: Colour) {
        self.blink = colour;
        self.blink_left = BLINK_TICKS;
    }

    /// In Normal there is no mode blink to count.
    #[inline]
    pub fn tick(&mut self, mode: Mode) {
        if self.version_left > 0 {
            self.version_left -= 1;
        }
        if self.blink_left > 0 {
            self.blink_left -= 1;
        }
        if mode != Mode::Normal {
            self.phase = (self.phase + 1) % WHOLE;
        }
    }

    #[inline]
    pub fn colour(&self, mode: Mode, level: u8, registers: &Registers) -> Colour {
        if self.version_left > 0 {
            return self.version_colour(registers.at(VERSION));
        }
        match mode {
            Mode::Setup => self.mode_colour(Colour::Green),
            Mode::Factory => self.mode_colour(Colour::Red),
            Mode::Normal => self.normal_colour(level, registers.at(LED_OPTIONS)),
        }
    }

    /// From bit 3 down, each bit as colour and then black; green is 1.
    fn version_colour(&self, version: u8) -> Colour {
        let elapsed = VERSION_TICKS - self.version_left;
        let bit = 3 - elapsed / WHOLE as u16;
        if elapsed % WHOLE as u16 >= HALF as u16 {
            Colour::Black
        } else if version >> bit & 1 == 1 {
            Colour::Green
        } else {
            Colour::Red
        }
    }

    fn mode_colour(&self, colour: Colour) -> Colour {
        if self.phase < HALF {
            colour
        } else {
            Colour::Black
        }
    }

    #[inline]
    fn normal_colour(&self, level: u8, options: u8) -> Colour {
        if options & DIAGNOSTIC == 0 {
            let bits = if level != 0 { options >> 2 } else { options };
            LEVEL_COLOURS[(bits & 3) as usize]
        } else if self.blink_left > 0 {
            self.blink
        } else {
            Colour::Orange
        }
    }
}
