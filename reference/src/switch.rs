//! The switch: everything it holds, its events, and the answer to each.

use crate::answer::{
    Answer, Colour, Mode, DONE, NO_CONTACT, RESERVED_SET, SHORT_BUFFER, WRONG_IMAGE,
};
use crate::dimmer::{Dimmer, FULL};
use crate::lamp::Lamp;
use crate::packet::{Sent, BUFFER};
use crate::paddle::Paddle;
use crate::registers::{Registers, RESTARTS, SAVED_LEVEL, SETUP_ENTRIES};

pub(crate) const TOP: usize = 0;
pub(crate) const BOTTOM: usize = 1;

const LAST_CONTACT: u8 = 3;
const FLASH_TICKS: u8 = 120;
const SAVE_TICKS: u16 = 480;

#[derive(Clone, Debug)]
pub struct Switch {
    pub(crate) registers: Registers,
    pub(crate) dimmer: Dimmer,
    pub(crate) mode: Mode,
    lamp: Lamp,
    paddles: [Paddle; 2],
    /// Ticks left of the output shown after a mode change.
    flash_left: u8,
    save_left: u16,
}

impl Switch {
    /// Refuses with 1 an image that is not 256 bytes.
    pub fn start(image: &[u8]) -> Result<(Switch, Answer), u8> {
        let image: [u8; 256] = image.try_into().map_err(|_| WRONG_IMAGE)?;
        let switch = Switch::begin(Registers::new(image));
        let answer = switch.show(DONE);
        Ok((switch, answer))
    }

    /// What start and restart have in common.
    fn begin(mut registers: Registers) -> Switch {
        registers.count_up(RESTARTS);
        Switch {
            dimmer: Dimmer::new(registers.at(SAVED_LEVEL)),
            registers,
            mode: Mode::Normal,
            lamp: Lamp::new(),
            paddles: [Paddle::new(), Paddle::new()],
            flash_left: 0,
            save_left: SAVE_TICKS,
        }
    }

    pub fn press(&mut self, contact: u8, out: &mut [u8]) -> Answer {
        if let Err(number) = check_edge(contact, out) {
            return self.show(number);
        }
        self.paddles[side_of(contact)].press(bit_of(contact));
        self.show(DONE)
    }

    pub fn release(&mut self, contact: u8, out: &mut [u8]) -> Answer {
        if let Err(number) = check_edge(contact, out) {
            return self.show(number);
        }
        let side = side_of(contact);
        let mut sent = Sent::new(out);
        if let Some(gesture) = self.paddles[side].release(bit_of(contact)) {
            self.act(side, gesture, &mut sent);
        }
        self.done(&sent)
    }

    pub fn tick(&mut self, out: &mut [u8]) -> Answer {
        if out.len() < BUFFER {
            return self.show(SHORT_BUFFER);
        }
        let mut sent = Sent::new(out);
        self.lamp.tick(self.mode);
        if self.flash_left > 0 {
            self.flash_left -= 1;
        }
        self.dimmer.tick();
        for side in [TOP, BOTTOM] {
            if let Some(gesture) = self.paddles[side].tick() {
                self.act(side, gesture, &mut sent);
            }
        }
        self.save_level();
        self.done(&sent)
    }

    pub fn receive(&mut self, packet: &[u8], out: &mut [u8]) -> Answer {
        if out.len() < BUFFER {
            return self.show(SHORT_BUFFER);
        }
        let mut sent = Sent::new(out);
        match self.obey(packet, &mut sent) {
            Ok(()) => {
                self.lamp.start_blink(Colour::Green);
                self.done(&sent)
            }
            Err(number) => {
                // Damage blinks black; what is sound and refused does not blink.
                if number <= RESERVED_SET {
                    self.lamp.start_blink(Colour::Black);
                }
                self.show(number)
            }
        }
    }

    pub fn restart(&mut self, out: &mut [u8]) -> Answer {
        if out.len() < BUFFER {
            return self.show(SHORT_BUFFER);
        }
        *self = Switch::begin(self.registers.clone());
        self.show(DONE)
    }

    pub fn image(&self) -> [u8; 256] {
        self.registers.image()
    }

    /// The mode changes, and the output and lamp show it.
    pub(crate) fn enter(&mut self, mode: Mode) {
        self.mode = mode;
        self.flash_left = FLASH_TICKS;
        self.lamp.enter_mode();
        match mode {
            Mode::Normal => {}
            Mode::Setup => self.registers.count_up(SETUP_ENTRIES),
            Mode::Factory => self.registers.set_factory_values(),
        }
    }

    /// The last stage of a tick (01, Paddles, 16).
    #[inline]
    fn save_level(&mut self) {
        self.save_left -= 1;
        if self.save_left == 0 {
            self.save_left = SAVE_TICKS;
            self.registers.put(SAVED_LEVEL, self.dimmer.percent());
        }
    }

    /// The answer 0 with the packets sent; sending blinks red.
    #[inline]
    fn done(&mut self, sent: &Sent) -> Answer {
        if sent.count > 0 {
            self.lamp.start_blink(Colour::Red);
        }
        Answer {
            count: sent.count,
            lengths: sent.lengths,
            ..self.show(DONE)
        }
    }

    /// The switch as it stands, with nothing sent.
    #[inline]
    fn show(&self, number: u8) -> Answer {
        let level = self.dimmer.level();
        Answer {
            number,
            count: 0,
            lengths: [0; 2],
            level,
            output: self.output(level),
            colour: self.lamp.colour(self.mode, level, &self.registers),
            mode: self.mode,
        }
    }

    #[inline]
    fn output(&self, level: u8) -> u8 {
        if self.flash_left == 0 {
            level
        } else if level == 0 {
            FULL
        } else {
            0
        }
    }
}

fn check_edge(contact: u8, out: &[u8]) -> Result<(), u8> {
    if out.len() < BUFFER {
        Err(SHORT_BUFFER)
    } else if contact > LAST_CONTACT {
        Err(NO_CONTACT)
    } else {
        Ok(())
    }
}

/// Contacts 0 and 2 are the top paddle's, 1 and 3 the bottom's.
fn side_of(contact: u8) -> usize {
    (contact & 1) as usize
}

/// Local is bit 0, slave bit 1.
fn bit_of(contact: u8) -> u8 {
    1 << (contact >> 1)
}
