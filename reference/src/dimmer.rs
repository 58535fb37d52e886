//! The dimmer: the level in steps, the Last On Level, and the fade or blink
//! that moves the level.

use crate::registers::Registers;

pub const FULL: u8 = 200;

/// A rate above 15, which stands for the default rate.
pub const DEFAULT_RATE: u8 = 255;

const HIGHEST_RATE: u8 = 15;
const HIGHEST_PERCENT: u8 = 100;
const BLINK_VALUE: u8 = 30;

/// Rate 0 snaps.
const TICKS_PER_STEP: [u16; 16] = [
    0, 1, 2, 4, 6, 8, 12, 24, 36, 72, 144, 360, 720, 1080, 2160, 4320,
];

#[derive(Clone, Debug)]
enum Motion {
    Idle,
    Fading { target: u8, ticks: u16, left: u16 },
    Blinking { ticks: u16, left: u16 },
}

#[derive(Clone, Debug)]
pub struct Dimmer {
    level: u8,
    last_on: u8,
    motion: Motion,
}

impl Dimmer {
    /// From the saved percent; one above 100 counts as 0.
    pub fn new(saved: u8) -> Dimmer {
        let level = if saved > HIGHEST_PERCENT {
            0
        } else {
            2 * saved
        };
        Dimmer {
            level,
            last_on: FULL,
            motion: Motion::Idle,
        }
    }

    #[inline]
    pub fn level(&self) -> u8 {
        self.level
    }

    /// Half the step, an odd one rounded down.
    pub fn percent(&self) -> u8 {
        self.level / 2
    }

    /// Sets a level given in percents; a rate above 15 asks for the default.
    pub fn set(&mut self, percent: u8, rate: u8, registers: &Registers) {
        let mut target = if percent > HIGHEST_PERCENT {
            self.last_on
        } else {
            2 * percent
        };
        let mut rate = if rate > HIGHEST_RATE {
            registers.default_rate()
        } else {
            rate
        };
        if !registers.is_capable() {
            rate = 0;
            if target != 0 {
                target = FULL;
            }
        }
        if target != 0 {
            self.last_on = target;
        }
        self.move_to(target, TICKS_PER_STEP[rate as usize]);
    }

    fn move_to(&mut self, target: u8, ticks: u16) {
        if ticks == 0 {
            self.level = target;
        }
        self.motion = if self.level == target {
            Motion::Idle
        } else {
            Motion::Fading {
                target,
                ticks,
                left: ticks,
            }
        };
    }

    /// At rest it does nothing (01, Levels and fades, 9).
    pub fn stop(&mut self) {
        if matches!(self.motion, Motion::Idle) {
            return;
        }
        if self.level != 0 {
            self.last_on = self.level;
        }
        self.motion = Motion::Idle;
    }

    /// A value of 0 stands for 30; the Last On Level stays.
    pub fn blink(&mut self, value: u8) {
        let value = if value == 0 { BLINK_VALUE } else { value };
        let ticks = 4 * value as u16;
        self.level = FULL;
        self.motion = Motion::Blinking { ticks, left: ticks };
    }

    #[inline]
    pub fn tick(&mut self) {
        match &mut self.motion {
            Motion::Idle => {}
            Motion::Fading {
                target,
                ticks,
                left,
            } => {
                *left -= 1;
                if *left == 0 {
                    *left = *ticks;
                    self.level = if self.level < *target {
                        self.level + 1
                    } else {
                        self.level - 1
                    };
                    if self.level == *target {
                        self.motion = Motion::Idle;
                    }
                }
            }
            Motion::Blinking { ticks, left } => {
                *left -= 1;
                if *left == 0 {
                    *left = *ticks;
                    self.level = if self.level == 0 { FULL } else { 0 };
                }
            }
        }
    }
}
