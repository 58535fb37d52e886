//! The sizes, the functions and the answer of `include/melszondru.h`, declared for Rust by hand: the same names, and the same
//! arguments in the same order. The switch's arrays and the image to fill are references here, where C has pointers; an array that
//! is only read is a shared one. Nothing outside this file is unsafe.

#![allow(unsafe_code)]
#![deny(clippy::undocumented_unsafe_blocks)]

/// How many paddles a switch has: the top one and the bottom one. An event sends at most a packet for each.
pub const PADDLES: usize = 2;

/// The bytes of one place in the buffer, and of the longest packet. The packets sent stand in order, each at the front of a place
/// of its own.
pub const PLACE: usize = 24;

/// The least buffer that an event takes: a place of [`PLACE`] bytes for each of the [`PADDLES`].
pub const ROOM: usize = PADDLES * PLACE;

const COUNTERS: usize = 7;
const NUMBERS: usize = 8;
const BYTES: usize = 4 * PADDLES;
const REGISTERS: usize = 256;

pub type Counters = [u16; COUNTERS];
pub type Numbers = [u8; NUMBERS];
pub type Paddles = [u8; BYTES];
pub type Registers = [u8; REGISTERS];

/// What a start or an event is answered with.
///
/// On a refusal nothing was sent; level, output, colour and mode show the switch after it.
///
/// ```
/// use melszondru::{Colour, Mode, Refusal, Switch};
///
/// let (_, answer) = Switch::start(&[0; 256])?;
/// assert_eq!((answer.number(), answer.count()), (0, 0));
/// assert_eq!((answer.level(), answer.output()), (0, 0));
/// assert_eq!((answer.colour(), answer.mode()), (Colour::Red, Mode::Normal));
/// # Ok::<(), Refusal>(())
/// ```
#[repr(C)]
#[derive(Clone, Copy, PartialEq, Eq, Hash)]
pub struct Answer {
    pub(crate) lengths: [u8; PADDLES],
    pub(crate) count: u8,
    pub(crate) number: u8,
    pub(crate) level: u8,
    pub(crate) output: u8,
    pub(crate) colour: u8,
    pub(crate) mode: u8,
}

extern "C" {
    pub fn melszondru_parts_start(
        image: *const u8,
        length: usize,
        counters: &mut Counters,
        numbers: &mut Numbers,
        paddles: &mut Paddles,
        registers: &mut Registers,
    ) -> Answer;
    pub fn melszondru_parts_press(
        counters: &Counters,
        numbers: &Numbers,
        paddles: &mut Paddles,
        registers: &Registers,
        contact: u8,
        out: *const u8,
        room: usize,
    ) -> Answer;
    pub fn melszondru_parts_release(
        counters: &mut Counters,
        numbers: &mut Numbers,
        paddles: &mut Paddles,
        registers: &Registers,
        contact: u8,
        out: *mut u8,
        room: usize,
    ) -> Answer;
    pub fn melszondru_parts_tick(
        counters: &mut Counters,
        numbers: &mut Numbers,
        paddles: &mut Paddles,
        registers: &mut Registers,
        out: *mut u8,
        room: usize,
    ) -> Answer;
    pub fn melszondru_parts_receive(
        counters: &mut Counters,
        numbers: &mut Numbers,
        registers: &mut Registers,
        packet: *const u8,
        length: usize,
        out: *mut u8,
        room: usize,
    ) -> Answer;
    pub fn melszondru_parts_restart(
        counters: &mut Counters,
        numbers: &mut Numbers,
        paddles: &mut Paddles,
        registers: &mut Registers,
        out: *const u8,
        room: usize,
    ) -> Answer;
    pub fn melszondru_parts_image(numbers: &Numbers, registers: &Registers, image: &mut Registers);
}

/// The arrays of one switch.
#[derive(Clone)]
#[cfg_attr(test, derive(PartialEq, Eq, Debug))]
pub struct Arrays {
    pub counters: Counters,
    pub numbers: Numbers,
    pub paddles: Paddles,
    pub registers: Registers,
}

impl Arrays {
    pub const CLEAR: Arrays = Arrays {
        counters: [0; COUNTERS],
        numbers: [0; NUMBERS],
        paddles: [0; BYTES],
        registers: [0; REGISTERS],
    };

    #[inline]
    pub fn start(&mut self, image: &[u8]) -> Answer {
        // SAFETY: pointer and length are those of the borrowed `image`; the arrays are fields of the exclusively borrowed `self`,
        // each another one, so nothing overlaps.
        unsafe {
            melszondru_parts_start(
                image.as_ptr(),
                image.len(),
                &mut self.counters,
                &mut self.numbers,
                &mut self.paddles,
                &mut self.registers,
            )
        }
    }

    #[inline]
    pub fn press(&mut self, contact: u8, out: &[u8]) -> Answer {
        // SAFETY: pointer and length are those of the borrowed `out`, which is only read; the arrays are fields of the exclusively
        // borrowed `self`, each another one, so nothing overlaps.
        unsafe {
            melszondru_parts_press(
                &self.counters,
                &self.numbers,
                &mut self.paddles,
                &self.registers,
                contact,
                out.as_ptr(),
                out.len(),
            )
        }
    }

    #[inline]
    pub fn release(&mut self, contact: u8, out: &mut [u8]) -> Answer {
        // SAFETY: pointer and length are those of `out`; it and `self`, of which the arrays are fields, each another one, are
        // borrowed exclusively, so nothing overlaps.
        unsafe {
            melszondru_parts_release(
                &mut self.counters,
                &mut self.numbers,
                &mut self.paddles,
                &self.registers,
                contact,
                out.as_mut_ptr(),
                out.len(),
            )
        }
    }

    #[inline]
    pub fn tick(&mut self, out: &mut [u8]) -> Answer {
        // SAFETY: as of `release`.
        unsafe {
            melszondru_parts_tick(
                &mut self.counters,
                &mut self.numbers,
                &mut self.paddles,
                &mut self.registers,
                out.as_mut_ptr(),
                out.len(),
            )
        }
    }

    #[inline]
    pub fn receive(&mut self, packet: &[u8], out: &mut [u8]) -> Answer {
        // SAFETY: as of `release`; the other pointer and length are those of `packet`, which is borrowed while `out` and `self` are
        // borrowed exclusively, so it overlaps neither.
        unsafe {
            melszondru_parts_receive(
                &mut self.counters,
                &mut self.numbers,
                &mut self.registers,
                packet.as_ptr(),
                packet.len(),
                out.as_mut_ptr(),
                out.len(),
            )
        }
    }

    #[inline]
    pub fn restart(&mut self, out: &[u8]) -> Answer {
        // SAFETY: as of `press`.
        unsafe {
            melszondru_parts_restart(
                &mut self.counters,
                &mut self.numbers,
                &mut self.paddles,
                &mut self.registers,
                out.as_ptr(),
                out.len(),
            )
        }
    }

    pub fn image(&self) -> Registers {
        let mut image = [0; REGISTERS];
        // SAFETY: every argument is a reference to an array of its size, and `image` is no part of `self`.
        unsafe { melszondru_parts_image(&self.numbers, &self.registers, &mut image) };
        image
    }
}

#[cfg(test)]
mod tests {
    use super::*;

    /// Network 1, unit 5, password 12 34, dimming capable, step 80; one byte too many.
    fn image() -> [u8; 257] {
        let mut image = [0; 257];
        image[0x00..0x04].copy_from_slice(&[1, 5, 0x12, 0x34]);
        image[0x8D] = 0x13;
        image[0xF9] = 40;
        image
    }

    fn running() -> Arrays {
        let mut arrays = Arrays::CLEAR;
        assert_eq!(arrays.start(&image()[..256]).number, 0);
        let fades = [0x09, 0x00, 0x01, 0x05, 0x09, 0x22, 0x32, 0x05, 0x8F];
        assert_eq!(arrays.receive(&fades, &mut [0; ROOM]).number, 0);
        assert_eq!(arrays.press(0, &[0; ROOM]).number, 0);
        assert!(arrays.counters[5..].iter().all(|counter| *counter != 0));
        assert!(arrays.numbers[5] != 0 && arrays.paddles[0] != 0);
        arrays
    }

    #[test]
    fn a_refused_start_leaves_a_running_switch() {
        let mut arrays = running();
        for length in [0, 1, 255, 257] {
            let answer = arrays.start(&image()[..length]);
            assert_eq!((answer.number, answer.level, answer.mode), (1, 0, 0));
            assert_eq!(arrays, running());
        }
    }

    #[test]
    fn a_start_hangs_on_the_image_alone() {
        let mut zeros = Arrays::CLEAR;
        let mut ones = Arrays {
            counters: [0xFFFF; COUNTERS],
            numbers: [0xFF; NUMBERS],
            paddles: [0xFF; BYTES],
            registers: [0xFF; REGISTERS],
        };
        let mut old = running();
        let answer = zeros.start(&image()[..256]);
        assert_eq!(ones.start(&image()[..256]), answer);
        assert_eq!(old.start(&image()[..256]), answer);
        assert_eq!(ones, zeros);
        assert_eq!(old, zeros);
    }

    /// A packet has no business with the paddles, nor a press with the rest. Whatever bytes stand there, they stay.
    #[test]
    fn what_is_not_lent_or_only_read_stays() {
        let mut arrays = running();
        arrays.paddles = [0xEE; BYTES];
        let fade_stop = [0x07, 0x00, 0x01, 0x05, 0x09, 0x24, 0xC6];
        assert_eq!(arrays.receive(&fade_stop, &mut [0; ROOM]).number, 0);
        assert_eq!(arrays.paddles, [0xEE; BYTES]);
        let mut before = arrays.clone();
        assert_eq!(arrays.press(0, &[0; ROOM]).number, 0);
        assert_ne!(arrays, before);
        before.paddles = arrays.paddles;
        assert_eq!(arrays, before);
    }

    /// Neither has a byte that nobody set.
    #[test]
    fn there_is_no_padding() {
        assert_eq!(size_of::<Arrays>(), 286);
        assert_eq!(size_of::<Answer>(), 8);
    }

    #[test]
    fn the_password_is_in_the_numbers_and_not_in_the_registers() {
        let mut arrays = Arrays::CLEAR;
        arrays.start(&image()[..256]);
        assert_eq!(arrays.numbers[6..], [0x12, 0x34]);
        assert_eq!(arrays.registers[..4], [1, 5, 0, 0]);
        assert_eq!(arrays.image()[..4], [1, 5, 0x12, 0x34]);
    }
}
