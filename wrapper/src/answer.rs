//! What an event is answered with, and the packets that it sent.

pub use crate::boundary::Answer;
use crate::{Colour, Mode, Refusal, PADDLES, PLACE};
use core::array::IntoIter;
use core::fmt;
use core::iter::{FusedIterator, Take, Zip};
use core::slice::Chunks;

impl Answer {
    /// 0 where the event was done, otherwise the number of the refusal.
    pub const fn number(self) -> u8 {
        self.number
    }

    /// Why the event was refused; nothing where it was done.
    ///
    /// ```
    /// use melszondru::{Refusal, Switch, ROOM};
    ///
    /// let (mut switch, answer) = Switch::start(&[0; 256])?;
    /// assert_eq!(answer.refusal(), None);
    /// assert_eq!(switch.press(4, &[0; ROOM]).refusal(), Some(Refusal::NoContact));
    /// # Ok::<(), Refusal>(())
    /// ```
    pub fn refusal(self) -> Option<Refusal> {
        match self.number {
            0 => None,
            number => Some(Refusal::try_from(number).expect("the library answers 0 to 14")),
        }
    }

    /// The answer where the event was done, the refusal where it was not: for `?`.
    ///
    /// ```
    /// use melszondru::{Refusal, Switch, ROOM};
    ///
    /// fn level_after_a_tick(switch: &mut Switch) -> Result<u8, Refusal> {
    ///     Ok(switch.tick(&mut [0; ROOM]).done()?.level())
    /// }
    /// let (mut switch, _) = Switch::start(&[0; 256])?;
    /// assert_eq!(level_after_a_tick(&mut switch), Ok(0));
    /// # Ok::<(), Refusal>(())
    /// ```
    pub fn done(self) -> Result<Answer, Refusal> {
        match self.refusal() {
            None => Ok(self),
            Some(refusal) => Err(refusal),
        }
    }

    /// How many packets were sent, 0 to [`PADDLES`].
    pub const fn count(self) -> usize {
        self.count as usize
    }

    /// The lengths of the packets sent, in order; 0 where there is none.
    pub fn lengths(self) -> [usize; PADDLES] {
        self.lengths.map(usize::from)
    }

    /// The packets sent, in order. `out` is the buffer that the event was lent, as it left it; a packet that does not lie within
    /// `out` is left out.
    ///
    /// ```
    /// use melszondru::{Refusal, Switch, ROOM};
    ///
    /// let mut image = [0; 256];
    /// image[..2].copy_from_slice(&[1, 5]); // network and unit
    /// let (mut switch, _) = Switch::start(&image)?;
    /// let mut out = [0; ROOM];
    /// let report_status = [0x07, 0x00, 0x01, 0x05, 0x09, 0x30, 0xBA];
    /// let answer = switch.receive(&report_status, &mut out);
    /// let mut packets = answer.packets(&out);
    /// assert_eq!(packets.next(), Some(&[0x08, 0x00, 0x01, 0x09, 0x05, 0x86, 0x00, 0x63][..]));
    /// assert_eq!(packets.next(), None);
    /// # Ok::<(), Refusal>(())
    /// ```
    ///
    /// The packets are borrowed from the buffer, so the next event cannot write over them while they are used:
    ///
    /// ```compile_fail,E0502
    /// # use melszondru::{Switch, ROOM};
    /// # let (mut switch, _) = Switch::start(&[0; 256]).unwrap();
    /// let mut out = [0; ROOM];
    /// let mut packets = switch.tick(&mut out).packets(&out);
    /// switch.tick(&mut out);
    /// packets.next();
    /// ```
    pub fn packets(self, out: &[u8]) -> Packets<'_> {
        let places = out.chunks(PLACE).zip(self.lengths());
        let sent = places.clone().take(self.count());
        let within = sent.take_while(|(place, length)| *length <= place.len());
        let count = within.count();
        Packets(places.take(count))
    }

    /// The level in steps, 0 to 200.
    pub const fn level(self) -> u8 {
        self.level
    }

    /// What the output shows, in steps, 0 to 200: the level, but for the flash after a change of mode.
    pub const fn output(self) -> u8 {
        self.output
    }

    /// What the lamp shows.
    pub const fn colour(self) -> Colour {
        Colour::read(self.colour)
    }

    /// The mode after the event.
    pub const fn mode(self) -> Mode {
        Mode::read(self.mode)
    }
}

impl fmt::Debug for Answer {
    fn fmt(&self, f: &mut fmt::Formatter<'_>) -> fmt::Result {
        f.debug_struct("Answer")
            .field("number", &self.number())
            .field("count", &self.count())
            .field("lengths", &self.lengths())
            .field("level", &self.level())
            .field("output", &self.output())
            .field("colour", &self.colour())
            .field("mode", &self.mode())
            .finish()
    }
}

/// The packets that an event sent, at most one for each of the [`PADDLES`], as stretches of the buffer that it was lent:
/// [`Answer::packets`] makes it.
#[derive(Clone)]
pub struct Packets<'a>(Take<Zip<Chunks<'a, u8>, IntoIter<usize, PADDLES>>>);

impl<'a> Iterator for Packets<'a> {
    type Item = &'a [u8];

    fn next(&mut self) -> Option<&'a [u8]> {
        let (place, length) = self.0.next()?;
        place.get(..length)
    }

    fn size_hint(&self) -> (usize, Option<usize>) {
        self.0.size_hint()
    }
}

impl ExactSizeIterator for Packets<'_> {}

impl FusedIterator for Packets<'_> {}

/// The packets that are left, and no other byte of the buffer.
impl fmt::Debug for Packets<'_> {
    fn fmt(&self, f: &mut fmt::Formatter<'_>) -> fmt::Result {
        f.debug_list().entries(self.clone()).finish()
    }
}
