//! The 256 register bytes: where things are kept, the counters and the
//! factory values.

pub const NETWORK: u8 = 0x00;
pub const UNIT: u8 = 0x01;
pub const PASSWORD: u8 = 0x02;
pub const VERSION: u8 = 0x0B;
pub const ACTIONS: u8 = 0x7A;
pub const LED_OPTIONS: u8 = 0x8B;
pub const DIMMER_OPTIONS: u8 = 0x8D;
pub const SAVED_LEVEL: u8 = 0xF9;
pub const SETUP_ENTRIES: u8 = 0xFA;
pub const RESTARTS: u8 = 0xFC;

const RECEIVE: u8 = 0x40;
const RECEIVE_COUNT: u8 = 16;
const TRANSMIT: u8 = 0x70;
const TRANSMIT_SIZE: u8 = 5;
const COMMANDS: u8 = 0x90;

const FACTORY_ACTIONS: [u8; 8] = [100, 255, 100, 0, 0, 255, 0, 0];

#[derive(Clone, Debug)]
pub struct Registers([u8; 256]);

impl Registers {
    pub fn new(image: [u8; 256]) -> Registers {
        Registers(image)
    }

    pub fn image(&self) -> [u8; 256] {
        self.0
    }

    #[inline]
    pub fn at(&self, address: u8) -> u8 {
        self.0[address as usize]
    }

    #[inline]
    pub fn put(&mut self, address: u8, value: u8) {
        self.0[address as usize] = value;
    }

    /// The caller has checked that the values end at 0xFF or before.
    pub fn put_all(&mut self, first: u8, values: &[u8]) {
        let first = first as usize;
        self.0[first..first + values.len()].copy_from_slice(values);
    }

    /// A counter at 255 stays there.
    pub fn count_up(&mut self, address: u8) {
        self.put(address, self.at(address).saturating_add(1));
    }

    pub fn is_password(&self, guess: &[u8]) -> bool {
        guess == [self.at(PASSWORD), self.at(PASSWORD + 1)]
    }

    pub fn is_capable(&self) -> bool {
        self.at(DIMMER_OPTIONS) & 0x10 != 0
    }

    pub fn default_rate(&self) -> u8 {
        self.at(DIMMER_OPTIONS) & 0x0F
    }

    /// The address of the first component with that link, if it is one
    /// (01, Registers, 10).
    pub fn matching_component(&self, destination: u8) -> Option<u8> {
        if !is_link(destination) {
            return None;
        }
        (0..RECEIVE_COUNT)
            .map(|index| RECEIVE + 3 * index)
            .find(|&component| self.at(component) == destination)
    }

    /// The address of a paddle's transmit component: 0 top, 1 bottom.
    pub fn transmit_component(side: usize) -> u8 {
        TRANSMIT + TRANSMIT_SIZE * side as u8
    }

    /// `number` is 0 to 13.
    pub fn command_entry(&self, number: u8) -> [u8; 3] {
        let entry = COMMANDS + 3 * number;
        [self.at(entry), self.at(entry + 1), self.at(entry + 2)]
    }

    pub fn set_factory_values(&mut self) {
        self.put_all(NETWORK, &[255, 1, 0x12, 0x34]);
        self.0[0x10..=0x3F].fill(0);
        self.0[0x40..=0xBF].fill(255);
        self.put_all(ACTIONS, &FACTORY_ACTIONS);
        self.put(LED_OPTIONS, 0x09);
        self.put(DIMMER_OPTIONS, 0x13);
    }
}

/// Neither 0 nor 255 (01, Registers, 9).
pub fn is_link(number: u8) -> bool {
    number != 0 && number != 255
}
