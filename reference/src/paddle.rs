//! One paddle, top or bottom: recognises taps, Hold and Release from the edges
//! of its local and slave contacts.

const TAP_TICKS: u8 = 60;
const HOLD_TICKS: u8 = 180;
const GAP_TICKS: u8 = 180;
const MOST_TAPS: u8 = 11;

#[derive(Clone, Copy, PartialEq, Eq, Debug)]
pub enum Gesture {
    Taps(u8),
    Hold,
    Release,
}

#[derive(Clone, Debug)]
pub struct Paddle {
    /// One bit for each contact that is down.
    contacts: u8,
    /// Ticks since the press, up to 180.
    held: u8,
    taps: u8,
    /// Ticks since the last counted tap, up to 180.
    gap: u8,
}

impl Paddle {
    pub fn new() -> Paddle {
        Paddle {
            contacts: 0,
            held: 0,
            taps: 0,
            gap: 0,
        }
    }

    pub fn press(&mut self, contact: u8) {
        if self.contacts == 0 {
            self.held = 0;
        }
        self.contacts |= contact;
    }

    pub fn release(&mut self, contact: u8) -> Option<Gesture> {
        if self.contacts & contact == 0 {
            return None;
        }
        self.contacts &= !contact;
        if self.contacts != 0 {
            return None;
        }
        if self.held == HOLD_TICKS {
            return Some(Gesture::Release);
        }
        if self.held >= TAP_TICKS {
            self.taps = (self.taps + 1).min(MOST_TAPS);
            self.gap = 0;
        }
        None
    }

    #[inline]
    pub fn tick(&mut self) -> Option<Gesture> {
        if self.contacts == 0 && self.taps == 0 {
            return None;
        }
        // The gap goes on whether the paddle is up or down.
        self.gap = (self.gap + 1).min(GAP_TICKS);
        if self.contacts != 0 {
            return self.tick_down();
        }
        if self.gap < GAP_TICKS {
            return None;
        }
        let taps = self.taps;
        self.taps = 0;
        Some(Gesture::Taps(taps))
    }

    fn tick_down(&mut self) -> Option<Gesture> {
        if self.held == HOLD_TICKS {
            return None;
        }
        self.held += 1;
        if self.held < HOLD_TICKS {
            return None;
        }
        self.taps = 0;
        Some(Gesture::Hold)
    }
}
