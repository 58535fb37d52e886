//! What every event is answered with, and the answer numbers.

#[derive(Clone, Copy, PartialEq, Eq, Debug)]
pub enum Colour {
    Black,
    Red,
    Green,
    Orange,
}

#[derive(Clone, Copy, PartialEq, Eq, Debug)]
pub enum Mode {
    Normal,
    Setup,
    Factory,
}

/// `level` and `output` are in steps, 0 to 200.
#[derive(Clone, Copy, PartialEq, Eq, Debug)]
pub struct Answer {
    pub number: u8,
    pub count: u8,
    pub lengths: [u8; 2],
    pub level: u8,
    pub output: u8,
    pub colour: Colour,
    pub mode: Mode,
}

pub const DONE: u8 = 0;
pub const WRONG_IMAGE: u8 = 1;
pub const SHORT_BUFFER: u8 = 2;
pub const NO_CONTACT: u8 = 3;
pub const SHORT_PACKET: u8 = 4;
pub const LONG_PACKET: u8 = 5;
pub const WRONG_LENGTH: u8 = 6;
pub const WRONG_SUM: u8 = 7;
pub const RESERVED_SET: u8 = 8;
pub const OTHER_NETWORK: u8 = 9;
pub const OTHER_DESTINATION: u8 = 10;
pub const NO_COMMAND: u8 = 11;
pub const WRONG_ARGUMENTS: u8 = 12;
pub const NOT_PERMITTED: u8 = 13;
pub const WRONG_PASSWORD: u8 = 14;
