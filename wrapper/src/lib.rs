//! The proved switch, safe to use from Rust: the logic of a wall dimmer, by events in and answers and packets out.
//!
//! A [`Switch`] starts from an image of its 256 registers and takes five events: an edge of a contact, pressed or released, a
//! tick of 1/240 second, a received packet, a restart. Each event is lent a buffer of at least [`ROOM`] bytes and gives an
//! [`Answer`]: what was refused and why, which packets are to be sent, and level, output, lamp and mode. There is no heap, no
//! global and no clock, and this crate is `no_std`.
//!
//! ```
//! use melszondru::{Mode, Refusal, Switch, ROOM};
//!
//! let mut image = [0; 256];
//! image[0x00..0x04].copy_from_slice(&[1, 5, 0x12, 0x34]); // network, unit, password
//! image[0x8D] = 0x13; // dimming capable, default rate 3
//! image[0xF9] = 40; // the saved level, in percent
//! let (mut switch, answer) = Switch::start(&image)?;
//! assert_eq!((answer.level(), answer.mode()), (80, Mode::Normal));
//!
//! // Unit 9 asks for the level, and is told 40 percent.
//! let mut out = [0; ROOM];
//! let answer = switch.receive(&[0x07, 0x00, 0x01, 0x05, 0x09, 0x30, 0xBA], &mut out);
//! for packet in answer.packets(&out) {
//!     assert_eq!(packet, [0x08, 0x00, 0x01, 0x09, 0x05, 0x86, 0x28, 0x3B]);
//! }
//! assert_eq!(answer.count(), 1);
//!
//! // A wrong password opens nothing.
//! let answer = switch.receive(&[0x09, 0x00, 0x01, 0x05, 0x09, 0x03, 0x12, 0x35, 0x9E], &mut out);
//! assert_eq!(answer.refusal(), Some(Refusal::WrongPassword));
//! assert_eq!((answer.mode(), answer.count()), (Mode::Normal, 0));
//! # Ok::<(), Refusal>(())
//! ```
//!
//! The archive `target/staticlib/libhost.a` has the proved code; `tests/build archive` makes it (x86-64 Linux). The proofs are
//! about the archive's source. This crate is not proved: it hands the arguments on, and its tests try it.

#![no_std]
#![deny(missing_docs)]
#![deny(unsafe_code)]

#[cfg(test)]
extern crate std;

mod answer;
mod boundary;
mod kinds;
mod live;
mod refusal;

pub use answer::{Answer, Packets};
pub use boundary::{PADDLES, PLACE, ROOM};
pub use kinds::{Colour, Mode, NoSuchNumber};
pub use refusal::Refusal;

use boundary::Arrays;
use core::fmt;
use live::Live;

/// One switch: its registers, its password, and all that runs in it.
///
/// Two switches are equal where they stand for the same switch: the same registers and password, the same mode, level, Last On
/// Level, motion, paddles and ticks to the next save, and the same lamp, with the colour of its last blink. What an ended motion
/// left behind in memory does not count.
///
/// The password is in memory and in [`Switch::image`]. `Debug` does not show it:
///
/// ```
/// use melszondru::{Refusal, Switch};
///
/// let mut image = [0; 256];
/// let (one, _) = Switch::start(&image)?;
/// image[0x02..0x04].copy_from_slice(&[0xA7, 0xC3]);
/// let (other, _) = Switch::start(&image)?;
/// assert_ne!(one, other);
/// assert_eq!(format!("{one:?}"), format!("{other:?}"));
/// assert!(format!("{one:?}").contains("password: withheld"));
/// # Ok::<(), Refusal>(())
/// ```
#[derive(Clone)]
pub struct Switch(Arrays);

/// Every event is lent a buffer `out` of at least [`ROOM`] bytes. Packets sent are put into it in order, each at the front of a
/// place of [`PLACE`] bytes; every other byte keeps its value, and a refusal changes none. A press and a restart send nothing: they
/// only read how long the buffer is.
impl Switch {
    /// A switch from a copy of the image, and its first answer. An image that is not 256 bytes is
    /// [`WrongImage`](Refusal::WrongImage); there is no other refusal.
    ///
    /// ```
    /// use melszondru::{Refusal, Switch};
    ///
    /// let (switch, answer) = Switch::start(&[0; 256])?;
    /// assert_eq!(answer.number(), 0);
    /// assert_eq!(switch.image()[0xFC], 1); // starts are counted here
    /// assert_eq!(Switch::start(&[0; 255]).err(), Some(Refusal::WrongImage));
    /// # Ok::<(), Refusal>(())
    /// ```
    pub fn start(image: &[u8]) -> Result<(Switch, Answer), Refusal> {
        let mut switch = Switch(Arrays::CLEAR);
        let answer = switch.0.start(image).done()?;
        Ok((switch, answer))
    }

    /// A start where the switch stands, with nothing moved: as [`start`](Switch::start) from the image, of what ran here nothing is
    /// left. Refused by [`WrongImage`](Refusal::WrongImage), the switch runs on as it was.
    ///
    /// ```
    /// use melszondru::{Refusal, Switch};
    ///
    /// let (mut switch, _) = Switch::start(&[0; 256])?;
    /// let mut image = switch.image();
    /// image[0xF9] = 40; // the saved level, in percent
    /// assert_eq!(switch.start_over(&image)?.level(), 80);
    /// assert_eq!(switch, Switch::start(&image)?.0);
    /// assert_eq!(switch.start_over(&[0; 255]), Err(Refusal::WrongImage));
    /// assert_eq!(switch, Switch::start(&image)?.0);
    /// # Ok::<(), Refusal>(())
    /// ```
    #[inline]
    pub fn start_over(&mut self, image: &[u8]) -> Result<Answer, Refusal> {
        self.0.start(image).done()
    }

    /// A press edge of a contact: 0 and 1 are the local ones, 2 and 3 the slave ones; even is top, odd is bottom. Sends nothing.
    /// Refused by 2 or 3.
    ///
    /// ```
    /// use melszondru::{Refusal, Switch, ROOM};
    ///
    /// let mut image = [0; 256];
    /// image[0x7A..0x7C].copy_from_slice(&[100, 0]); // one tap of the top paddle: 100 percent, at once
    /// let (mut switch, _) = Switch::start(&image)?;
    /// let mut out = [0; ROOM];
    /// switch.press(0, &out).done()?;
    /// for _ in 0..60 {
    ///     switch.tick(&mut out).done()?;
    /// }
    /// switch.release(0, &mut out).done()?;
    /// for _ in 0..180 {
    ///     switch.tick(&mut out).done()?;
    /// }
    /// assert_eq!(switch.tick(&mut out).level(), 200);
    /// # Ok::<(), Refusal>(())
    /// ```
    #[inline]
    pub fn press(&mut self, contact: u8, out: &[u8]) -> Answer {
        self.0.press(contact, out)
    }

    /// A release edge of a contact, numbered as in [`press`](Switch::press). Sends at most one packet. Refused by 2 or 3.
    ///
    /// ```
    /// use melszondru::{Refusal, Switch, ROOM};
    ///
    /// let (mut switch, _) = Switch::start(&[0; 256])?;
    /// let before = switch.clone();
    /// let mut out = [0; ROOM];
    /// switch.release(1, &mut out).done()?;
    /// assert_eq!(switch, before); // the contact was up already
    /// assert_eq!(switch.release(4, &mut out).refusal(), Some(Refusal::NoContact));
    /// # Ok::<(), Refusal>(())
    /// ```
    #[inline]
    pub fn release(&mut self, contact: u8, out: &mut [u8]) -> Answer {
        self.0.release(contact, out)
    }

    /// One tick, 1/240 second. Sends at most a packet for each paddle. Refused by 2.
    ///
    /// ```
    /// use melszondru::{Refusal, Switch, ROOM};
    ///
    /// let (mut switch, _) = Switch::start(&[0; 256])?;
    /// switch.tick(&mut [0; ROOM]).done()?;
    /// assert_eq!(switch.tick(&mut [0; ROOM - 1]).refusal(), Some(Refusal::ShortBuffer));
    /// # Ok::<(), Refusal>(())
    /// ```
    #[inline]
    pub fn tick(&mut self, out: &mut [u8]) -> Answer {
        self.0.tick(out)
    }

    /// A received packet, from its first byte to its checksum. Sends at most one packet, the reply. Refused by 2 or 4 to 14.
    ///
    /// ```
    /// use melszondru::{Mode, Refusal, Switch, ROOM};
    ///
    /// let mut image = [0; 256];
    /// image[0x00..0x04].copy_from_slice(&[1, 5, 0x12, 0x34]); // network, unit, password
    /// let (mut switch, _) = Switch::start(&image)?;
    /// let mut out = [0; ROOM];
    /// let start_setup = [0x09, 0x00, 0x01, 0x05, 0x09, 0x03, 0x12, 0x34, 0x9F];
    /// assert_eq!(switch.receive(&start_setup, &mut out).done()?.mode(), Mode::Setup);
    /// assert_eq!(switch.receive(&start_setup, &mut out).refusal(), Some(Refusal::NotHere));
    /// # Ok::<(), Refusal>(())
    /// ```
    ///
    /// The packet cannot lie in the buffer:
    ///
    /// ```compile_fail,E0502
    /// # use melszondru::{Switch, ROOM};
    /// # let (mut switch, _) = Switch::start(&[0; 256]).unwrap();
    /// let mut out = [0; ROOM];
    /// switch.receive(&out[..7], &mut out);
    /// ```
    #[inline]
    pub fn receive(&mut self, packet: &[u8], out: &mut [u8]) -> Answer {
        self.0.receive(packet, out)
    }

    /// A restart: the password stays, and the registers but for 0xFC, which counts one more; all else is as after a start. Sends
    /// nothing. Refused by 2.
    ///
    /// ```
    /// use melszondru::{Refusal, Switch, ROOM};
    ///
    /// let (mut switch, _) = Switch::start(&[0; 256])?;
    /// let saved = switch.image();
    /// switch.restart(&[0; ROOM]).done()?;
    /// assert_eq!(switch, Switch::start(&saved)?.0);
    /// # Ok::<(), Refusal>(())
    /// ```
    #[inline]
    pub fn restart(&mut self, out: &[u8]) -> Answer {
        self.0.restart(out)
    }

    /// The 256 registers for the owner to save, with the password among them, at 0x02 and 0x03.
    ///
    /// ```
    /// use melszondru::{Refusal, Switch};
    ///
    /// let mut image = [7; 256];
    /// let (switch, _) = Switch::start(&image)?;
    /// image[0xFC] += 1; // the start is counted
    /// assert_eq!(switch.image(), image);
    /// # Ok::<(), Refusal>(())
    /// ```
    pub fn image(&self) -> [u8; 256] {
        self.0.image()
    }

    fn live(&self) -> Live {
        Live::read(&self.0.counters, &self.0.numbers, &self.0.paddles)
    }
}

impl PartialEq for Switch {
    fn eq(&self, other: &Switch) -> bool {
        self.live() == other.live() && self.0.registers == other.0.registers
    }
}

impl Eq for Switch {}

/// What runs in the switch, without its password and its registers; [`Switch::image`] has those.
impl fmt::Debug for Switch {
    fn fmt(&self, f: &mut fmt::Formatter<'_>) -> fmt::Result {
        let live = self.live();
        f.debug_struct("Switch")
            .field("mode", &live.mode)
            .field("level", &live.level)
            .field("last", &live.last)
            .field("motion", &live.motion)
            .field("lamp", &live.lamp)
            .field("save", &live.save)
            .field("paddles", &live.paddles)
            .field("password", &live.password)
            .finish_non_exhaustive()
    }
}
