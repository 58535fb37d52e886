//! What the generator believes of the switch: enough to steer it, not a second switch.

#[derive(Clone, Copy, PartialEq, Eq, Debug)]
pub enum Mode {
    Normal,
    Setup,
    Factory,
}

#[derive(Clone, Copy, Default)]
struct Paddle {
    contacts: [bool; 2],
    held: u32,
    gap: u32,
    taps: u8,
}

impl Paddle {
    fn down(&self) -> bool {
        self.contacts[0] || self.contacts[1]
    }

    fn quiet(&self) -> bool {
        !self.down() && self.taps == 0
    }

    fn edge(&mut self, slave: usize, down: bool) {
        let before = self.down();
        self.contacts[slave] = down;
        if self.down() && !before {
            self.held = 0;
        } else if before && !self.down() && (60..180).contains(&self.held) {
            self.taps = (self.taps + 1).min(11);
            self.gap = 0;
        }
    }

    /// One tick; the taps of a run that closes in it.
    fn tick(&mut self) -> Option<u8> {
        self.gap += 1;
        if self.down() {
            self.held += 1;
            if self.held == 180 {
                self.taps = 0;
            }
        } else if self.taps > 0 && self.gap >= 180 {
            return Some(std::mem::take(&mut self.taps));
        }
        None
    }
}

pub struct Belief {
    pub registers: [u8; 256],
    pub mode: Mode,
    pub room: usize,
    /// Ticks since the start or the last restart.
    pub since: u32,
    paddles: [Paddle; 2],
}

impl Belief {
    pub fn new(registers: [u8; 256]) -> Belief {
        Belief {
            registers,
            mode: Mode::Normal,
            room: 48,
            since: 0,
            paddles: Default::default(),
        }
    }

    pub fn network(&self) -> u8 {
        self.registers[0]
    }

    pub fn unit(&self) -> u8 {
        self.registers[1]
    }

    pub fn password(&self) -> [u8; 2] {
        [self.registers[2], self.registers[3]]
    }

    /// The valid links of the sixteen receive components, repeated ones too.
    pub fn links(&self) -> Vec<u8> {
        let links = (0x40..0x70).step_by(3).map(|at| self.registers[at]);
        links.filter(|&link| link != 0 && link != 255).collect()
    }

    pub fn is_down(&self, contact: u8) -> bool {
        self.paddles[usize::from(contact % 2)].contacts[usize::from(contact / 2)]
    }

    pub fn quiet(&self) -> bool {
        self.paddles.iter().all(Paddle::quiet)
    }

    pub fn edge(&mut self, contact: u8, down: bool) {
        if self.hears() && contact < 4 {
            self.paddles[usize::from(contact % 2)].edge(usize::from(contact / 2), down);
        }
    }

    pub fn ticks(&mut self, count: u32) {
        if !self.hears() {
            return;
        }
        self.since += count;
        for _ in 0..count {
            if self.quiet() {
                return;
            }
            for paddle in 0..2 {
                if let Some(taps) = self.paddles[paddle].tick() {
                    self.closed(taps);
                }
            }
        }
    }

    pub fn restart(&mut self) {
        if self.hears() {
            self.mode = Mode::Normal;
            self.since = 0;
            self.paddles = Default::default();
        }
    }

    pub fn hear(&mut self, packet: &[u8]) {
        let Some((destination, message)) = self.accepted(packet) else {
            return;
        };
        let ours = destination == self.unit() && destination != 0;
        match (self.mode, message) {
            (Mode::Normal, [0x03, guess @ ..]) if ours && guess == self.password() => {
                self.mode = Mode::Setup;
            }
            (Mode::Setup, [0x04]) => self.mode = Mode::Normal,
            (Mode::Setup, [0x11, first, values @ ..]) if ours => self.write(*first, values),
            _ => {}
        }
    }

    fn hears(&self) -> bool {
        self.room >= 48
    }

    fn closed(&mut self, taps: u8) {
        match (self.mode, taps) {
            (Mode::Normal, 5) => self.mode = Mode::Setup,
            (Mode::Setup | Mode::Factory, 2) => self.mode = Mode::Normal,
            (Mode::Setup, 10) => self.enter_factory(),
            _ => {}
        }
    }

    fn enter_factory(&mut self) {
        self.mode = Mode::Factory;
        self.registers[..4].copy_from_slice(&[255, 1, 0x12, 0x34]);
        self.registers[0x10..0x40].fill(0);
        self.registers[0x40..0xC0].fill(255);
        self.registers[0x7A..0x82].copy_from_slice(&[100, 255, 100, 0, 0, 255, 0, 0]);
        self.registers[0x8B] = 0x09;
        self.registers[0x8D] = 0x13;
    }

    /// Destination and message of a direct packet that passes the first checks.
    fn accepted<'a>(&self, packet: &'a [u8]) -> Option<(u8, &'a [u8])> {
        let sum = packet.iter().fold(0u8, |sum, &byte| sum.wrapping_add(byte));
        let sound = (7..=24).contains(&packet.len()) && sum == 0;
        if !sound || !self.hears() || usize::from(packet[0]) & 0x9F != packet.len() {
            return None;
        }
        let reaches = packet[2] == 0 || packet[2] == self.network();
        if packet[1] >= 128 || !reaches || (packet[3] != 0 && packet[3] != self.unit()) {
            return None;
        }
        Some((packet[3], &packet[5..packet.len() - 1]))
    }

    fn write(&mut self, first: u8, values: &[u8]) {
        let first = usize::from(first);
        let end = first + values.len();
        if (1..=16).contains(&values.len()) && end <= 256 {
            self.registers[first..end].copy_from_slice(values);
        }
    }
}
