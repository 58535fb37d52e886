//! What the counters, the numbers and the paddles' bytes of a switch stand for: `coreOf`, `passwordOf` and `paddlesOf` of
//! crates/state/specs and crates/panel/specs, part by part. Bytes and bits that mean nothing are not read.

use crate::boundary::{Counters, Numbers, Paddles};
use crate::{Colour, Mode, PADDLES};
use core::fmt;

/// All that a switch holds besides its registers.
#[derive(PartialEq, Eq)]
pub(crate) struct Live {
    pub(crate) password: Password,
    pub(crate) mode: Mode,
    pub(crate) level: u8,
    pub(crate) last: u8,
    pub(crate) motion: Motion,
    pub(crate) lamp: Lamp,
    pub(crate) save: u16,
    pub(crate) paddles: [Paddle; PADDLES],
}

#[derive(PartialEq, Eq)]
pub(crate) struct Password(u8, u8);

/// The bytes are withheld, so that no log has them.
impl fmt::Debug for Password {
    fn fmt(&self, f: &mut fmt::Formatter<'_>) -> fmt::Result {
        f.write_str("withheld")
    }
}

#[derive(PartialEq, Eq, Debug)]
pub(crate) enum Motion {
    Idle,
    Fading { target: u8, period: u16, left: u16 },
    Blinking { period: u16, left: u16 },
}

#[derive(PartialEq, Eq, Debug)]
pub(crate) struct Lamp {
    version: u16,
    phase: u16,
    blink: u16,
    hue: Colour,
    flash: u16,
}

#[derive(PartialEq, Eq, Debug)]
pub(crate) struct Paddle {
    local: bool,
    slave: bool,
    hold: u8,
    gap: u8,
    taps: u8,
}

// Where each counter and each number stands.
pub(crate) const VERSION: usize = 0;
pub(crate) const PHASE: usize = 1;
pub(crate) const BLINK: usize = 2;
pub(crate) const FLASH: usize = 3;
pub(crate) const SAVE: usize = 4;
pub(crate) const LEFT: usize = 5;
pub(crate) const PERIOD: usize = 6;

pub(crate) const LEVEL: usize = 0;
pub(crate) const KIND: usize = 1;
pub(crate) const MODE: usize = 2;
pub(crate) const HUE: usize = 3;
pub(crate) const LAST: usize = 4;
pub(crate) const TARGET: usize = 5;
pub(crate) const FIRST: usize = 6;
pub(crate) const SECOND: usize = 7;

// Where the first paddle's byte of each kind stands; those of the others follow it.
pub(crate) const CONTACTS: usize = 0;
pub(crate) const TAPS: usize = PADDLES;
pub(crate) const HOLD: usize = 2 * PADDLES;
pub(crate) const GAP: usize = 3 * PADDLES;

// The bits of contacts that say something.
const LOCAL: u8 = 1;
const SLAVE: u8 = 2;

impl Live {
    pub(crate) fn read(counters: &Counters, numbers: &Numbers, paddles: &Paddles) -> Live {
        Live {
            password: Password(numbers[FIRST], numbers[SECOND]),
            mode: Mode::read(numbers[MODE]),
            level: numbers[LEVEL],
            last: numbers[LAST],
            motion: Motion::read(counters, numbers),
            lamp: Lamp::read(counters, numbers),
            save: counters[SAVE],
            paddles: core::array::from_fn(|paddle| Paddle::read(paddle, paddles)),
        }
    }
}

impl Motion {
    fn read(counters: &Counters, numbers: &Numbers) -> Motion {
        let (period, left) = (counters[PERIOD], counters[LEFT]);
        match numbers[KIND] {
            1 => Motion::Fading {
                target: numbers[TARGET],
                period,
                left,
            },
            2 => Motion::Blinking { period, left },
            _ => Motion::Idle,
        }
    }
}

impl Lamp {
    fn read(counters: &Counters, numbers: &Numbers) -> Lamp {
        Lamp {
            version: counters[VERSION],
            phase: counters[PHASE],
            blink: counters[BLINK],
            hue: Colour::read(numbers[HUE]),
            flash: counters[FLASH],
        }
    }
}

impl Paddle {
    fn read(paddle: usize, paddles: &Paddles) -> Paddle {
        let contacts = paddles[CONTACTS + paddle];
        Paddle {
            local: contacts & LOCAL != 0,
            slave: contacts & SLAVE != 0,
            hold: paddles[HOLD + paddle],
            gap: paddles[GAP + paddle],
            taps: paddles[TAPS + paddle],
        }
    }
}

#[cfg(test)]
mod tests {
    use super::*;
    use crate::{Switch, ROOM};
    use std::{format, vec::Vec};

    const IDLE: u8 = 0;
    const FADING: u8 = 1;
    const BLINKING: u8 = 2;

    /// A switch whose motion is of that kind, with no byte of its course 0.
    fn moving(kind: u8) -> Switch {
        let mut image = [0; 256];
        image[0x00..0x04].copy_from_slice(&[1, 5, 0x12, 0x34]);
        image[0x8D] = 0x13;
        let mut switch = Switch::start(&image).unwrap().0;
        switch.0.numbers[KIND] = kind;
        switch.0.numbers[TARGET] = 77;
        switch.0.counters[PERIOD] = 12;
        switch.0.counters[LEFT] = 5;
        switch
    }

    /// The places of counters, then of numbers, that mean nothing to a motion of that kind.
    fn stale(kind: u8) -> (&'static [usize], &'static [usize]) {
        match kind {
            FADING => (&[], &[]),
            BLINKING => (&[], &[TARGET]),
            _ => (&[LEFT, PERIOD], &[TARGET]),
        }
    }

    #[test]
    fn a_byte_counts_unless_it_means_nothing() {
        for kind in [IDLE, FADING, BLINKING] {
            let switch = moving(kind);
            let (counters, numbers) = stale(kind);
            for place in 0..switch.0.counters.len() {
                for bit in 0..16 {
                    let mut other = switch.clone();
                    other.0.counters[place] ^= 1 << bit;
                    let equal = counters.contains(&place);
                    assert_eq!(other == switch, equal, "kind {kind}, counter {place}");
                }
            }
            for place in 0..switch.0.numbers.len() {
                let mut other = switch.clone();
                other.0.numbers[place] ^= 1;
                // A kind of 3 is idle.
                let equal = numbers.contains(&place);
                assert_eq!(other == switch, equal, "kind {kind}, number {place}");
            }
            for place in 0..switch.0.paddles.len() {
                for bit in 0..8 {
                    let mut other = switch.clone();
                    other.0.paddles[place] ^= 1 << bit;
                    let equal = place < TAPS && 1 << bit > LOCAL | SLAVE;
                    assert_eq!(other == switch, equal, "paddles' byte {place}, bit {bit}");
                }
            }
            for place in 0..switch.0.registers.len() {
                let mut other = switch.clone();
                other.0.registers[place] ^= 0x10;
                assert_ne!(other, switch, "register {place}");
            }
        }
    }

    /// The bytes of one place that stand for one and the same have the same `class`, and no others.
    fn classes(place: impl Fn(&mut Switch) -> &mut u8, class: impl Fn(u8) -> u8, what: &str) {
        let holding: Vec<Switch> = (0..=255)
            .map(|byte| {
                let mut switch = moving(FADING);
                *place(&mut switch) = byte;
                switch
            })
            .collect();
        for one in 0..=255u8 {
            for other in 0..=255u8 {
                let equal = holding[usize::from(one)] == holding[usize::from(other)];
                let expected = class(one) == class(other);
                assert_eq!(equal, expected, "{what}: {one} and {other}");
            }
        }
    }

    #[test]
    fn a_number_out_of_range_is_as_decision_91_reads_it() {
        let number = |place: usize, class: fn(u8) -> u8| {
            let what = format!("number {place}");
            classes(|switch| &mut switch.0.numbers[place], class, &what);
        };
        number(MODE, |mode| if mode > 2 { 0 } else { mode });
        number(KIND, |kind| if kind > 2 { 0 } else { kind });
        number(HUE, |hue| if hue > 3 { 0 } else { hue });
        for plain in [LEVEL, LAST, TARGET, FIRST, SECOND] {
            number(plain, |number| number);
        }
    }

    #[test]
    fn of_contacts_the_lowest_two_bits_count_and_of_a_paddles_other_bytes_all() {
        let byte = |place: usize, class: fn(u8) -> u8| {
            let what = format!("paddles' byte {place}");
            classes(|switch| &mut switch.0.paddles[place], class, &what);
        };
        for paddle in 0..PADDLES {
            byte(CONTACTS + paddle, |contacts| contacts % 4);
            for plain in [TAPS, HOLD, GAP] {
                byte(plain + paddle, |byte| byte);
            }
        }
    }

    /// A switch that is equal to this one and has another number in every place where that can be.
    fn twin(switch: &Switch) -> Switch {
        let mut twin = switch.clone();
        for contacts in &mut twin.0.paddles[CONTACTS..TAPS] {
            *contacts ^= !(LOCAL | SLAVE);
        }
        for (place, most) in [(MODE, 2), (HUE, 3), (KIND, 2)] {
            let number = &mut twin.0.numbers[place];
            *number = if *number == 0 { most + 9 } else { *number };
        }
        let (counters, numbers) = stale(switch.0.numbers[KIND]);
        for place in counters {
            twin.0.counters[*place] ^= 0xFFFF;
        }
        for place in numbers {
            twin.0.numbers[*place] ^= 0xFF;
        }
        twin
    }

    /// What is left out of equality is nothing to the library either: equal switches answer alike, and stay equal.
    #[test]
    fn equal_switches_answer_alike_and_stay_equal() {
        let mut one = moving(IDLE);
        let packets: [&[u8]; 6] = [
            &[0x09, 0x00, 0x01, 0x05, 0x09, 0x22, 0x32, 0x05, 0x8F],
            &[0x07, 0x00, 0x01, 0x05, 0x09, 0x30, 0xBA],
            &[0x07, 0x00, 0x01, 0x05, 0x09, 0x30, 0xBB],
            &[0x08, 0x00, 0x01, 0x05, 0x09, 0x25, 0x07, 0xBD],
            &[0x07, 0x00, 0x01, 0x05, 0x09, 0x24, 0xC6],
            &[0x09, 0x00, 0x01, 0x05, 0x09, 0x03, 0x12, 0x34, 0x9F],
        ];
        for event in 0..4000usize {
            let mut other = twin(&one);
            assert_eq!(other, one, "event {event}");
            assert_ne!(other.0, one.0, "event {event}");
            let (mut left, mut right) = ([0xAA; ROOM], [0xAA; ROOM]);
            let play = |switch: &mut Switch, out: &mut [u8]| match (event % 97, event / 97 % 7) {
                (0, turn) if turn < 6 => switch.receive(packets[turn], out),
                (0, _) => switch.restart(out),
                (9, turn) => switch.press(turn as u8 % 4, out),
                // In a round after a tap, in the next one after Hold, when the paddle's other contact is down.
                (80, turn) => switch.release((turn + event / 679 % 2 * 2) as u8 % 4, out),
                _ => switch.tick(out),
            };
            assert_eq!(play(&mut one, &mut left), play(&mut other, &mut right));
            assert_eq!((&one, left), (&other, right), "event {event}");
            assert_eq!(one.image(), other.image());
        }
    }
}
