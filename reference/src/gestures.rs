//! What a paddle's gesture does in each mode, and the link packet it
//! transmits.

use crate::answer::Mode;
use crate::commands::{FADE_START, GOTO, STATUS_REPLY};
use crate::dimmer::DEFAULT_RATE;
use crate::packet::{Address, Sent};
use crate::paddle::Gesture;
use crate::registers::{is_link, Registers, ACTIONS, NETWORK, UNIT};
use crate::switch::{Switch, TOP};

/// Where a transmit component keeps its command numbers.
const SINGLE: u8 = 1;
const DOUBLE: u8 = 2;
const HOLD: u8 = 3;
const RELEASE: u8 = 4;

const SEND_NONE: u8 = 15;
const SEND_PERCENT: u8 = 14;
const UNUSED: u8 = 255;

impl Switch {
    /// By the mode before the act (01, Paddles, 12).
    pub(crate) fn act(&mut self, side: usize, gesture: Gesture, sent: &mut Sent) {
        match (self.mode, gesture) {
            (Mode::Setup, Gesture::Taps(2)) => self.enter(Mode::Normal),
            (Mode::Setup, Gesture::Taps(10)) => self.enter(Mode::Factory),
            (Mode::Setup, _) => {}
            (Mode::Factory, Gesture::Taps(2)) => self.enter(Mode::Normal),
            (Mode::Normal, Gesture::Taps(5)) => self.enter(Mode::Setup),
            (_, Gesture::Taps(1)) => {
                self.set_from_actions(side, 0);
                self.transmit(side, SINGLE, sent);
            }
            (_, Gesture::Taps(2)) => {
                self.set_from_actions(side, 1);
                self.transmit(side, DOUBLE, sent);
            }
            (_, Gesture::Taps(_)) => {}
            (_, Gesture::Hold) => {
                self.hold(side);
                self.transmit(side, HOLD, sent);
            }
            (_, Gesture::Release) => {
                self.dimmer.stop();
                self.transmit(side, RELEASE, sent);
            }
        }
    }

    /// The action table: two actions for each paddle (01, Registers, 4).
    fn set_from_actions(&mut self, side: usize, double: u8) {
        let action = ACTIONS + 4 * side as u8 + 2 * double;
        let level = self.registers.at(action);
        let rate = self.registers.at(action + 1);
        self.dimmer.set(level, rate, &self.registers);
    }

    /// A fade to the paddle's end, where the load can dim (01, Paddles, 7).
    fn hold(&mut self, side: usize) {
        if self.registers.is_capable() {
            let level = if side == TOP { 100 } else { 0 };
            self.dimmer.set(level, DEFAULT_RATE, &self.registers);
        }
    }

    fn transmit(&mut self, side: usize, which: u8, sent: &mut Sent) {
        let component = Registers::transmit_component(side);
        let link = self.registers.at(component);
        if !is_link(link) {
            return;
        }
        let address = Address {
            link: true,
            network: self.registers.at(NETWORK),
            destination: link,
            source: self.registers.at(UNIT),
        };
        match self.registers.at(component + which) & 0x0F {
            SEND_NONE => {}
            SEND_PERCENT => sent.send(&address, &[STATUS_REPLY, self.dimmer.percent()]),
            number => {
                let entry = self.registers.command_entry(number);
                if entry[0] != UNUSED {
                    sent.send(&address, &entry[..used_length(&entry)]);
                }
            }
        }
    }
}

/// An entry without the 255s at its end, but Goto and Fade Start keep their
/// level (01, Paddles, 15).
fn used_length(entry: &[u8; 3]) -> usize {
    if entry[2] != UNUSED {
        3
    } else if entry[1] != UNUSED || entry[0] == GOTO || entry[0] == FADE_START {
        2
    } else {
        1
    }
}
