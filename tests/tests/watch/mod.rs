//! Plays plans on the reference and notes what they reach: by its answers and registers, and by paddles measured here.

use reference::{Answer, Switch};
use std::collections::{BTreeMap, BTreeSet};
use trials::generate::{Event, Plan};

const ROOM: usize = 48;
const SAVE: u32 = 480;
const GET: u8 = 0x10;
const GOTO: u8 = 0x22;
const REPORT: u8 = 0x30;
const DIMMER_OPTIONS: usize = 0x8D;
const CAPABLE: u8 = 0x10;
const SETUP: u8 = 1;

/// Ticks per step at rates 10 to 14.
const SLOW: [u32; 5] = [144, 360, 720, 1080, 2160];

/// What a tick brings on one paddle.
#[derive(Clone, Copy, PartialEq, Eq)]
pub enum Gesture {
    Run(u32),
    Hold,
}

/// Measures presses, gaps and closed runs of taps on one paddle.
#[derive(Default)]
pub struct Meter {
    down: [bool; 2],
    /// Ticks since the paddle went down or up, and since the last tap.
    still: u32,
    since_tap: u32,
    taps: u32,
    pub presses: BTreeSet<u32>,
    pub gaps: BTreeSet<u32>,
    pub runs: BTreeSet<u32>,
}

impl Meter {
    pub fn restart(&mut self) {
        (self.down, self.still, self.taps) = ([false; 2], 0, 0);
    }

    pub fn edge(&mut self, slave: usize, down: bool) {
        let before = self.down.contains(&true);
        self.down[slave] = down;
        let after = self.down.contains(&true);
        if before == after {
            return;
        }
        if after {
            self.gaps.insert(self.still);
        } else {
            self.presses.insert(self.still);
            if (60..180).contains(&self.still) {
                (self.taps, self.since_tap) = (self.taps + 1, 0);
            }
        }
        self.still = 0;
    }

    pub fn tick(&mut self) -> Option<Gesture> {
        self.still += 1;
        self.since_tap += 1;
        if self.down.contains(&true) {
            if self.still == 180 {
                self.taps = 0;
                return Some(Gesture::Hold);
            }
        } else if self.taps > 0 && self.since_tap >= 180 {
            self.runs.insert(self.taps);
            return Some(Gesture::Run(std::mem::take(&mut self.taps)));
        }
        None
    }
}

/// What was reached. Modes are numbered: Normal 0, Setup 1, Factory Default 2.
#[derive(Default)]
pub struct Seen {
    /// Runs of taps that closed, by the mode that the tick found.
    pub runs: BTreeSet<(u8, u32)>,
    /// Runs of the top and of the bottom paddle that closed in one tick.
    pub pairs: BTreeSet<(u8, u32, u32)>,
    /// Ticks that saved, in which a gesture moved the level by more than a fade does and less than a blink.
    pub moved_saves: u32,
    /// Fades that went on when the dimmer options had been changed.
    pub changed_fades: u32,
    /// Rates of 10 to 14 at which a fade came to its end, in the tick that is due.
    pub slow_ends: BTreeSet<u8>,
    /// First register and count of each Get Registers that was answered, by mode.
    pub gets: BTreeSet<(u8, u8, u8)>,
    /// How many packets came from source 0, by link or to the switch itself as the command wants it, by command and answer number.
    pub from_nobody: BTreeMap<(u8, u8), u32>,
    /// Levels above 100 set when capable, where the last level other than 0 was set, by Goto, when not.
    pub last_while_not_capable: u32,
}

/// A fade at a slow rate that nothing has disturbed yet.
struct SlowFade {
    rate: u8,
    target: u8,
    left: u32,
}

pub struct Watch<'a> {
    seen: &'a mut Seen,
    switch: Switch,
    answer: Answer,
    buffer: Vec<u8>,
    room: usize,
    /// Ticks since the start or restart.
    since: u32,
    meters: [Meter; 2],
    slow_fade: Option<SlowFade>,
    /// The event before these ticks changed the dimmer options.
    options_changed: bool,
    /// The last level other than 0 was set by Goto when not capable.
    set_while_not_capable: bool,
}

pub fn watch(plan: &Plan, seen: &mut Seen) {
    let (switch, answer) = Switch::start(&plan.image).expect("an image of 256 bytes");
    let mut watch = Watch {
        seen,
        switch,
        answer,
        buffer: vec![0; 4096],
        room: ROOM,
        since: 0,
        meters: Default::default(),
        slow_fade: None,
        options_changed: false,
        set_while_not_capable: false,
    };
    plan.events.iter().for_each(|event| watch.event(event));
}

impl Watch<'_> {
    fn event(&mut self, event: &Event) {
        match event {
            Event::Room(bytes) => self.room = *bytes,
            Event::Press(contact) => self.edge(*contact, true),
            Event::Release(contact) => self.edge(*contact, false),
            Event::Ticks(count) => (0..*count).for_each(|_| self.tick()),
            Event::Packet(packet) => self.packet(packet),
            Event::Restart => self.restart(),
            Event::Dump => {}
        }
    }

    fn hears(&self) -> bool {
        self.room >= ROOM
    }

    fn edge(&mut self, contact: u8, down: bool) {
        let out = &mut self.buffer[..self.room];
        self.answer = if down {
            self.switch.press(contact, out)
        } else {
            self.switch.release(contact, out)
        };
        if self.answer.number == 0 {
            self.meters[usize::from(contact % 2)].edge(usize::from(contact / 2), down);
            self.disturbed();
        }
    }

    fn restart(&mut self) {
        self.answer = self.switch.restart(&mut self.buffer[..self.room]);
        if self.hears() {
            self.since = 0;
            self.meters.iter_mut().for_each(Meter::restart);
            self.disturbed();
            self.set_while_not_capable = false;
        }
    }

    fn disturbed(&mut self) {
        self.slow_fade = None;
        self.options_changed = false;
    }

    fn tick(&mut self) {
        let before = self.answer;
        self.answer = self.switch.tick(&mut self.buffer[..self.room]);
        if !self.hears() {
            return;
        }
        self.since += 1;
        let moved = before.level.abs_diff(self.answer.level);
        if self.options_changed && moved == 1 {
            self.seen.changed_fades += 1;
            self.options_changed = false;
        }
        self.slow_fade_tick();
        let [top, bottom] = &mut self.meters;
        let gestures = [top.tick(), bottom.tick()];
        if gestures != [None, None] {
            self.disturbed();
            self.gestures(before.mode as u8, gestures);
            self.seen.moved_saves +=
                u32::from(self.since.is_multiple_of(SAVE) && (2..200).contains(&moved));
        }
    }

    fn gestures(&mut self, mode: u8, gestures: [Option<Gesture>; 2]) {
        if let [Some(Gesture::Run(top)), Some(Gesture::Run(bottom))] = gestures {
            self.seen.pairs.insert((mode, top, bottom));
        }
        for gesture in gestures.into_iter().flatten() {
            if let Gesture::Run(taps) = gesture {
                self.seen.runs.insert((mode, taps));
            }
            let sets = matches!(gesture, Gesture::Hold | Gesture::Run(1 | 2));
            if sets && mode != SETUP {
                self.set_while_not_capable = false;
            }
        }
    }

    fn slow_fade_tick(&mut self) {
        let Some(fade) = &mut self.slow_fade else {
            return;
        };
        fade.left -= 1;
        if (fade.left == 0) != (self.answer.level == fade.target) {
            self.slow_fade = None;
        } else if fade.left == 0 {
            self.seen.slow_ends.insert(fade.rate);
            self.slow_fade = None;
        }
    }

    fn packet(&mut self, packet: &[u8]) {
        let (level, before) = (self.answer.level, self.switch.image());
        self.answer = self.switch.receive(packet, &mut self.buffer[..self.room]);
        let number = self.answer.number;
        if number != 0 && number < 9 {
            return;
        }
        self.nobody(packet, before[1]);
        if number != 0 {
            return;
        }
        let message = &packet[5..packet.len() - 1];
        if message[0] != REPORT {
            self.disturbed();
        }
        self.options_changed = before[DIMMER_OPTIONS] != self.switch.image()[DIMMER_OPTIONS];
        let capable = before[DIMMER_OPTIONS] & CAPABLE != 0;
        match *message {
            [GET, first, count] => {
                self.seen
                    .gets
                    .insert((self.answer.mode as u8, first, count));
            }
            [GOTO, to, ref rate @ ..] => {
                self.last_on(to, capable);
                self.slow_fade = slow_fade(level, to, rate, self.answer.level);
            }
            [0x20..=0x25, ..] => self.set_while_not_capable = false,
            _ => {}
        }
    }

    fn nobody(&mut self, packet: &[u8], unit: u8) {
        let (by_link, command) = (packet[0] >= 128, packet[5]);
        let wants_link = matches!(command, 0x20 | 0x21 | 0x31);
        let reaches = by_link || (packet[3] == unit && unit != 0);
        if packet[4] == 0 && reaches && by_link == wants_link {
            let key = (command, self.answer.number);
            *self.seen.from_nobody.entry(key).or_default() += 1;
        }
    }

    fn last_on(&mut self, to: u8, capable: bool) {
        match (to, capable) {
            (0, _) => {}
            (1..=99, false) => self.set_while_not_capable = true,
            (101.., true) => {
                self.seen.last_while_not_capable += u32::from(self.set_while_not_capable);
                self.set_while_not_capable = false;
            }
            _ => self.set_while_not_capable = false,
        }
    }
}

/// A Goto from `level` whose fade has just begun, at a rate of 10 to 14.
fn slow_fade(level: u8, to: u8, rate: &[u8], now: u8) -> Option<SlowFade> {
    let &[rate @ 10..=14] = rate else {
        return None;
    };
    let target = 2 * to.min(100);
    let left = SLOW[usize::from(rate - 10)] * u32::from(level.abs_diff(target));
    (to <= 100 && now == level && left > 0).then_some(SlowFade { rate, target, left })
}
