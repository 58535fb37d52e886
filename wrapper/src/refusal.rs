//! Why a start or an event is refused.

use crate::NoSuchNumber;
use core::fmt;

/// Why a start or an event was refused. [`Refusal::number`] is the answer number, 1 to 14.
///
/// A refused event sends nothing and leaves its buffer and the switch as they were, but for the black blink of the lamp that the
/// refusals 4 to 8 start.
///
/// ```
/// use melszondru::{Refusal, Switch};
///
/// let refusal = Switch::start(&[0; 255]).unwrap_err();
/// assert_eq!(refusal, Refusal::WrongImage);
/// assert_eq!(refusal.number(), 1);
/// assert_eq!(refusal.to_string(), "refused by 1: the image is not 256 bytes");
/// ```
#[derive(Clone, Copy, PartialEq, Eq, PartialOrd, Ord, Hash, Debug)]
#[repr(u8)]
pub enum Refusal {
    /// 1: the image is not 256 bytes.
    WrongImage = 1,
    /// 2: the buffer is shorter than 48 bytes.
    ShortBuffer,
    /// 3: the contact is above 3.
    NoContact,
    /// 4: the packet is under 7 bytes.
    ShortPacket,
    /// 5: the packet is over 24 bytes.
    LongPacket,
    /// 6: the packet says another length than it has.
    WrongLength,
    /// 7: the packet's bytes do not add up to 0 modulo 256.
    WrongSum,
    /// 8: bit 7 of the packet's byte 1 is set.
    ReservedBit,
    /// 9: the packet is for another network.
    OtherNetwork,
    /// 10: the packet is for another unit, or for a link that no component has.
    OtherDestination,
    /// 11: there is no such command.
    NoCommand,
    /// 12: the command's arguments do not fit, or its registers go past 0xFF.
    WrongArguments,
    /// 13: the command is not for this kind of packet, this destination, this mode, this load or source 0.
    NotHere,
    /// 14: the password of a Start Setup is wrong.
    WrongPassword,
}

impl Refusal {
    /// Every refusal, by its number.
    pub const ALL: [Refusal; 14] = [
        Refusal::WrongImage,
        Refusal::ShortBuffer,
        Refusal::NoContact,
        Refusal::ShortPacket,
        Refusal::LongPacket,
        Refusal::WrongLength,
        Refusal::WrongSum,
        Refusal::ReservedBit,
        Refusal::OtherNetwork,
        Refusal::OtherDestination,
        Refusal::NoCommand,
        Refusal::WrongArguments,
        Refusal::NotHere,
        Refusal::WrongPassword,
    ];

    /// The answer number, 1 to 14.
    pub const fn number(self) -> u8 {
        self as u8
    }

    /// What the number means, in a few words.
    pub const fn meaning(self) -> &'static str {
        match self {
            Refusal::WrongImage => "the image is not 256 bytes",
            Refusal::ShortBuffer => "the buffer is shorter than 48 bytes",
            Refusal::NoContact => "the contact is above 3",
            Refusal::ShortPacket => "the packet is under 7 bytes",
            Refusal::LongPacket => "the packet is over 24 bytes",
            Refusal::WrongLength => "the packet says another length than it has",
            Refusal::WrongSum => "the packet's bytes do not add up to 0",
            Refusal::ReservedBit => "the packet has its reserved bit set",
            Refusal::OtherNetwork => "the packet is for another network",
            Refusal::OtherDestination => "the packet is for another unit or link",
            Refusal::NoCommand => "there is no such command",
            Refusal::WrongArguments => "the command's arguments or registers do not fit",
            Refusal::NotHere => "the command is not permitted here",
            Refusal::WrongPassword => "the password is wrong",
        }
    }
}

impl fmt::Display for Refusal {
    fn fmt(&self, f: &mut fmt::Formatter<'_>) -> fmt::Result {
        write!(f, "refused by {}: {}", self.number(), self.meaning())
    }
}

impl core::error::Error for Refusal {}

impl From<Refusal> for u8 {
    fn from(refusal: Refusal) -> u8 {
        refusal.number()
    }
}

impl TryFrom<u8> for Refusal {
    type Error = NoSuchNumber;

    /// Of 1 to 14; 0 is no refusal.
    fn try_from(number: u8) -> Result<Refusal, NoSuchNumber> {
        Refusal::ALL
            .into_iter()
            .find(|refusal| refusal.number() == number)
            .ok_or(NoSuchNumber(number))
    }
}
