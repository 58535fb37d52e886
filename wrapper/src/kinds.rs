//! The lamp's colours and the switch's modes, and the numbers that stand for them.

use core::fmt;

/// What the lamp shows.
///
/// ```
/// use melszondru::{Colour, NoSuchNumber};
///
/// assert_eq!(Colour::try_from(3), Ok(Colour::Orange));
/// assert_eq!(u8::from(Colour::Orange), 3);
/// assert_eq!(Colour::try_from(4), Err(NoSuchNumber(4)));
/// ```
#[derive(Clone, Copy, PartialEq, Eq, Hash, Debug)]
#[repr(u8)]
pub enum Colour {
    /// 0.
    Black,
    /// 1.
    Red,
    /// 2.
    Green,
    /// 3.
    Orange,
}

/// The mode of a switch.
///
/// ```
/// use melszondru::{Mode, NoSuchNumber};
///
/// assert_eq!(Mode::try_from(1), Ok(Mode::Setup));
/// assert_eq!(u8::from(Mode::Setup), 1);
/// assert_eq!(Mode::try_from(3), Err(NoSuchNumber(3)));
/// ```
#[derive(Clone, Copy, PartialEq, Eq, Hash, Debug)]
#[repr(u8)]
pub enum Mode {
    /// 0.
    Normal,
    /// 1: the registers can be written, and the password can be read.
    Setup,
    /// 2: Factory Default.
    Factory,
}

impl Colour {
    /// The library's own reading of a number: one that stands for no colour is black.
    pub(crate) const fn read(number: u8) -> Colour {
        match number {
            1 => Colour::Red,
            2 => Colour::Green,
            3 => Colour::Orange,
            _ => Colour::Black,
        }
    }
}

impl Mode {
    /// The library's own reading of a number: one that stands for no mode is Normal.
    pub(crate) const fn read(number: u8) -> Mode {
        match number {
            1 => Mode::Setup,
            2 => Mode::Factory,
            _ => Mode::Normal,
        }
    }
}

impl From<Colour> for u8 {
    fn from(colour: Colour) -> u8 {
        colour as u8
    }
}

impl From<Mode> for u8 {
    fn from(mode: Mode) -> u8 {
        mode as u8
    }
}

impl TryFrom<u8> for Colour {
    type Error = NoSuchNumber;

    /// Of 0 to 3.
    fn try_from(number: u8) -> Result<Colour, NoSuchNumber> {
        let colour = Colour::read(number);
        if u8::from(colour) == number {
            Ok(colour)
        } else {
            Err(NoSuchNumber(number))
        }
    }
}

impl TryFrom<u8> for Mode {
    type Error = NoSuchNumber;

    /// Of 0 to 2.
    fn try_from(number: u8) -> Result<Mode, NoSuchNumber> {
        let mode = Mode::read(number);
        if u8::from(mode) == number {
            Ok(mode)
        } else {
            Err(NoSuchNumber(number))
        }
    }
}

/// A number that stands for no [`Colour`], [`Mode`] or [`Refusal`](crate::Refusal).
#[derive(Clone, Copy, PartialEq, Eq, Hash, Debug)]
pub struct NoSuchNumber(pub u8);

impl fmt::Display for NoSuchNumber {
    fn fmt(&self, f: &mut fmt::Formatter<'_>) -> fmt::Result {
        write!(f, "the number {} stands for nothing here", self.0)
    }
}

impl core::error::Error for NoSuchNumber {}
