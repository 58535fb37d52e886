//! Received packets: the checks 4 to 14 in their order, then the command.

use crate::answer::{
    Mode, NOT_PERMITTED, NO_COMMAND, OTHER_DESTINATION, OTHER_NETWORK, WRONG_ARGUMENTS,
    WRONG_PASSWORD,
};
use crate::dimmer::DEFAULT_RATE;
use crate::packet::{read, Address, Received, Sent};
use crate::registers::{NETWORK, PASSWORD, UNIT};
use crate::switch::Switch;

const START_SETUP: u8 = 0x03;
const STOP_SETUP: u8 = 0x04;
const GET_REGISTERS: u8 = 0x10;
const SET_REGISTERS: u8 = 0x11;
const ACTIVATE: u8 = 0x20;
const DEACTIVATE: u8 = 0x21;
pub const GOTO: u8 = 0x22;
pub const FADE_START: u8 = 0x23;
const FADE_STOP: u8 = 0x24;
const BLINK: u8 = 0x25;
const REPORT_STATUS: u8 = 0x30;
const STORE_PRESET: u8 = 0x31;

pub const STATUS_REPLY: u8 = 0x86;
const REGISTERS_REPLY: u8 = 0x90;
const MOST_VALUES: usize = 16;

impl Switch {
    /// Refuses with 4 to 14; a refusal changes nothing.
    pub(crate) fn obey(&mut self, packet: &[u8], sent: &mut Sent) -> Result<(), u8> {
        let received = read(packet)?;
        if received.network != 0 && received.network != self.registers.at(NETWORK) {
            return Err(OTHER_NETWORK);
        }
        let component = self.find_destination(&received)?;
        let (command, arguments) = (received.message[0], &received.message[1..]);
        if !is_listed(command) {
            return Err(NO_COMMAND);
        }
        if !are_arguments_right(command, arguments) {
            return Err(WRONG_ARGUMENTS);
        }
        if !self.is_permitted(command, &received) {
            return Err(NOT_PERMITTED);
        }
        if command == START_SETUP && !self.registers.is_password(arguments) {
            return Err(WRONG_PASSWORD);
        }
        match command {
            ACTIVATE | DEACTIVATE | STORE_PRESET => self.perform_by_link(command, component),
            GET_REGISTERS | REPORT_STATUS => self.reply(command, arguments, received.source, sent),
            _ => self.perform(command, arguments),
        }
        Ok(())
    }

    /// The matching component's address for a link packet; 0, which nothing
    /// uses, for a direct one.
    fn find_destination(&self, received: &Received) -> Result<u8, u8> {
        let destination = received.destination;
        if received.link {
            self.registers
                .matching_component(destination)
                .ok_or(OTHER_DESTINATION)
        } else if destination == 0 || destination == self.registers.at(UNIT) {
            Ok(0)
        } else {
            Err(OTHER_DESTINATION)
        }
    }

    fn is_permitted(&self, command: u8, received: &Received) -> bool {
        let direct = !received.link;
        let own_unit = direct && received.destination != 0;
        match command {
            START_SETUP => own_unit && self.mode == Mode::Normal,
            STOP_SETUP => direct && self.mode == Mode::Setup,
            GET_REGISTERS | REPORT_STATUS => own_unit && received.source != 0,
            SET_REGISTERS => own_unit && self.mode == Mode::Setup,
            ACTIVATE | DEACTIVATE | STORE_PRESET => received.link,
            FADE_START => self.registers.is_capable(),
            _ => true,
        }
    }

    fn perform_by_link(&mut self, command: u8, component: u8) {
        let level = self.registers.at(component + 1);
        let rate = self.registers.at(component + 2);
        match command {
            ACTIVATE => self.dimmer.set(level, rate, &self.registers),
            DEACTIVATE => self.dimmer.set(0, rate, &self.registers),
            _ => self.registers.put(component + 1, self.dimmer.percent()),
        }
    }

    fn perform(&mut self, command: u8, arguments: &[u8]) {
        match command {
            START_SETUP => self.enter(Mode::Setup),
            STOP_SETUP => self.enter(Mode::Normal),
            SET_REGISTERS => self.registers.put_all(arguments[0], &arguments[1..]),
            FADE_STOP => self.dimmer.stop(),
            BLINK => self.dimmer.blink(arguments.first().copied().unwrap_or(0)),
            _ => {
                let rate = arguments.get(1).copied().unwrap_or(DEFAULT_RATE);
                self.dimmer.set(arguments[0], rate, &self.registers);
            }
        }
    }

    /// To whoever asked (01, Commands, 8).
    fn reply(&self, command: u8, arguments: &[u8], sender: u8, sent: &mut Sent) {
        let address = Address {
            link: false,
            network: self.registers.at(NETWORK),
            destination: sender,
            source: self.registers.at(UNIT),
        };
        if command == REPORT_STATUS {
            sent.send(&address, &[STATUS_REPLY, self.dimmer.percent()]);
            return;
        }
        let (first, count) = (arguments[0], arguments[1]);
        let mut message = [0; 2 + MOST_VALUES];
        message[0] = REGISTERS_REPLY;
        message[1] = first;
        for offset in 0..count {
            message[2 + offset as usize] = self.shown_register(first + offset);
        }
        sent.send(&address, &message[..2 + count as usize]);
    }

    /// The password shows in Setup alone (01, Commands, 9).
    fn shown_register(&self, address: u8) -> u8 {
        let secret = address == PASSWORD || address == PASSWORD + 1;
        if secret && self.mode != Mode::Setup {
            0
        } else {
            self.registers.at(address)
        }
    }
}

fn is_listed(command: u8) -> bool {
    matches!(
        command,
        START_SETUP
            | STOP_SETUP
            | GET_REGISTERS
            | SET_REGISTERS
            | ACTIVATE
            | DEACTIVATE
            | GOTO
            | FADE_START
            | FADE_STOP
            | BLINK
            | REPORT_STATUS
            | STORE_PRESET
    )
}

fn are_arguments_right(command: u8, arguments: &[u8]) -> bool {
    match command {
        START_SETUP => arguments.len() == 2,
        GET_REGISTERS => arguments.len() == 2 && is_range(arguments[0], arguments[1] as usize),
        SET_REGISTERS => !arguments.is_empty() && is_range(arguments[0], arguments.len() - 1),
        GOTO | FADE_START => arguments.len() == 1 || arguments.len() == 2,
        BLINK => arguments.len() <= 1,
        _ => arguments.is_empty(),
    }
}

/// 1 to 16 registers, none behind 0xFF (01, Commands, 6).
fn is_range(first: u8, count: usize) -> bool {
    (1..=MOST_VALUES).contains(&count) && first as usize + count <= 256
}
