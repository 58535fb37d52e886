//! One set of cases for both switches: the proved one through `host`, and the reference.

use melszondru::ROOM;
use std::hint::black_box;
use std::time::{Duration, Instant};

/// What the cases need of a switch. Switch, buffer and answer pass through `black_box` at every event, so that no work can be left
/// out, and what is handed in cannot be known beforehand. The answer passes by reference: by value it would be copied, and a copy
/// that is no work of either switch draws their ratio towards 1, which flatters us.
pub trait Player: Clone {
    type Answer;
    fn start(image: &[u8; 256]) -> Self;
    /// A start into the place of a switch that there is.
    fn start_over(&mut self, image: &[u8; 256]);
    fn press(&mut self, contact: u8, out: &mut [u8]) -> Self::Answer;
    fn release(&mut self, contact: u8, out: &mut [u8]) -> Self::Answer;
    fn tick(&mut self, out: &mut [u8]) -> Self::Answer;
    fn receive(&mut self, packet: &[u8], out: &mut [u8]) -> Self::Answer;
    fn restart(&mut self, out: &mut [u8]) -> Self::Answer;
    /// The number, the count of packets and the mode of an answer.
    fn told(answer: &Self::Answer) -> [u8; 3];
}

macro_rules! player {
    ($home:ident, $start_over:expr, $told:expr) => {
        impl Player for $home::Switch {
            type Answer = $home::Answer;
            fn start(image: &[u8; 256]) -> Self {
                let started = $home::Switch::start(black_box(image));
                black_box(&started);
                started.expect(WHOLE).0
            }
            fn start_over(&mut self, image: &[u8; 256]) {
                let start_over: fn(&mut Self, &[u8; 256]) -> Self::Answer = $start_over;
                let answer = start_over(black_box(self), black_box(image));
                black_box(&answer);
            }
            fn press(&mut self, contact: u8, out: &mut [u8]) -> Self::Answer {
                let answer = $home::Switch::press(black_box(self), black_box(contact), out);
                black_box(out);
                black_box(&answer);
                answer
            }
            fn release(&mut self, contact: u8, out: &mut [u8]) -> Self::Answer {
                let answer = $home::Switch::release(black_box(self), black_box(contact), out);
                black_box(out);
                black_box(&answer);
                answer
            }
            fn tick(&mut self, out: &mut [u8]) -> Self::Answer {
                let answer = $home::Switch::tick(black_box(self), out);
                black_box(out);
                black_box(&answer);
                answer
            }
            fn receive(&mut self, packet: &[u8], out: &mut [u8]) -> Self::Answer {
                let answer = $home::Switch::receive(black_box(self), black_box(packet), out);
                black_box(out);
                black_box(&answer);
                answer
            }
            fn restart(&mut self, out: &mut [u8]) -> Self::Answer {
                let answer = $home::Switch::restart(black_box(self), out);
                black_box(out);
                black_box(&answer);
                answer
            }
            fn told(answer: &Self::Answer) -> [u8; 3] {
                let told: fn(&$home::Answer) -> [u8; 3] = $told;
                told(answer)
            }
        }
    };
}

const WHOLE: &str = "the image has 256 bytes";

player!(
    melszondru,
    |switch, image| switch.start_over(image).expect(WHOLE),
    |a| [a.number(), a.count() as u8, a.mode().into()]
);
player!(
    reference,
    |switch, image| {
        let (started, answer) = reference::Switch::start(image).expect(WHOLE);
        *switch = started;
        answer
    },
    |a| [a.number, a.count, a.mode as u8]
);

#[derive(Clone, Copy, PartialEq, Eq)]
pub enum Case {
    Idle,
    Fading,
    Down,
    Goto,
    Get,
    Refused,
    Edge,
    BothSend,
    Factory,
    Set,
    Start,
    StartOver,
    Restart,
}

pub const CASES: [(Case, &str); 13] = [
    (Case::Idle, "tick, idle"),
    (Case::Fading, "tick, fading"),
    (Case::Down, "tick, paddle down"),
    (Case::Goto, "packet, Goto"),
    (Case::Get, "packet, Get Registers of 16"),
    (Case::Refused, "packet, refused by 9"),
    (Case::Edge, "edge (press and release in turns)"),
    (Case::BothSend, "tick, both paddles send"),
    (Case::Factory, "tick, into Factory Default"),
    (Case::Set, "packet, Set Registers of 16"),
    (Case::Start, "start, by value"),
    (Case::StartOver, "start, in place"),
    (Case::Restart, "restart"),
];

/// Ticks from the press that stay short of Hold; of a press that is a tap; and from its end to the last tick before it counts.
const BEFORE_HOLD: u64 = 170;
const TAP: u64 = 60;
const BEFORE_CLOSE: u64 = 179;

/// Switches that are made ready together, so that the making is not timed; together they fit a small cache.
const BATCH: usize = 50;

/// Network 1, unit 5, link 3 in the fourth component, dimming capable at rate 15: a fade then outlasts every run. Each paddle has a
/// link, and sends three bytes on a tap.
fn image() -> [u8; 256] {
    let mut image = [0; 256];
    image[0x00..0x04].copy_from_slice(&[1, 5, 0x12, 0x34]);
    image[0x49..0x4C].copy_from_slice(&[3, 50, 15]);
    image[0x70..0x7A].copy_from_slice(&[7, 0, 0, 0, 0, 8, 1, 1, 1, 1]);
    image[0x7A..0x82].copy_from_slice(&[100, 15, 100, 15, 0, 15, 0, 15]);
    image[0x8B] = 0x09;
    image[0x8D] = 0x1F;
    image[0x90..0x96].copy_from_slice(&[0x22, 100, 5, 0x22, 0, 5]);
    image[0xF9] = 40;
    image
}

fn packet(link: bool, network: u8, destination: u8, message: &[u8]) -> Vec<u8> {
    let length = message.len() as u8 + 6;
    let mut bytes = vec![
        length | if link { 0x80 } else { 0 },
        0,
        network,
        destination,
        9,
    ];
    bytes.extend(message);
    let sum = bytes.iter().fold(0u8, |sum, byte| sum.wrapping_add(*byte));
    bytes.push(sum.wrapping_neg());
    bytes
}

/// The packet of a case.
fn asked(case: Case) -> Vec<u8> {
    match case {
        Case::Goto => packet(true, 1, 3, &[0x22, 50, 0]),
        Case::Get => packet(false, 1, 5, &[0x10, 0x40, 16]),
        Case::Refused => packet(false, 2, 5, &[0x30]),
        Case::Set => {
            let message: Vec<u8> = [0x11, 0x10].into_iter().chain(1..=16).collect();
            packet(false, 1, 5, &message)
        }
        _ => Vec::new(),
    }
}

/// Both paddles, or one, tapped `taps` times, up to the last tick before the taps count.
fn tapped<P: Player>(switch: &mut P, contacts: &[u8], taps: u64) {
    let mut out = [0; ROOM];
    for _ in 0..taps {
        contacts
            .iter()
            .for_each(|contact| _ = switch.press(*contact, &mut out));
        (0..TAP).for_each(|_| _ = switch.tick(&mut out));
        contacts
            .iter()
            .for_each(|contact| _ = switch.release(*contact, &mut out));
        (0..TAP).for_each(|_| _ = switch.tick(&mut out));
    }
    (TAP..BEFORE_CLOSE).for_each(|_| _ = switch.tick(&mut out));
}

/// The switch at the beginning of a case: past its version blinks, nothing running but what the case is about.
pub fn ready<P: Player>(case: Case) -> P {
    let mut out = [0; ROOM];
    let mut switch = P::start(&image());
    (0..600).for_each(|_| _ = switch.tick(&mut out));
    match case {
        Case::Fading => _ = switch.receive(&packet(false, 1, 5, &[0x22, 100, 15]), &mut out),
        Case::Down => _ = switch.press(0, &mut out),
        Case::BothSend => tapped(&mut switch, &[0, 1], 1),
        Case::Factory | Case::Set => {
            _ = switch.receive(&packet(false, 1, 5, &[3, 0x12, 0x34]), &mut out)
        }
        _ => {}
    }
    if case == Case::Factory {
        tapped(&mut switch, &[0], 10);
    }
    shows::<P>(case, &switch);
    switch
}

/// The event of the case is the one it says: its number, packets and mode.
fn shows<P: Player>(case: Case, from: &P) {
    let (mut switch, mut out) = (from.clone(), [0; ROOM]);
    let answer = match case {
        Case::Goto | Case::Get | Case::Refused | Case::Set => {
            switch.receive(&asked(case), &mut out)
        }
        Case::Edge => switch.press(0, &mut out),
        Case::Restart => switch.restart(&mut out),
        _ => switch.tick(&mut out),
    };
    let (normal, setup, factory) = (0, 1, 2);
    let expected = match case {
        Case::Get => [0, 1, normal],
        Case::Refused => [9, 0, normal],
        Case::BothSend => [0, 2, normal],
        Case::Factory => [0, 0, factory],
        Case::Set => [0, 0, setup],
        _ => [0, 0, normal],
    };
    assert_eq!(P::told(&answer), expected);
}

/// Plays `count` events of the case from the state that `ready` gives; the time that they took. With `act` false only what has to be
/// made ready for them is done.
pub fn play<P: Player>(case: Case, from: &P, count: u64, act: bool) -> Duration {
    let events = if act { count } else { 0 };
    match case {
        Case::Idle | Case::Fading => steady(from, events, |switch, out| _ = switch.tick(out)),
        Case::Down => (0..count / BEFORE_HOLD)
            .map(|_| {
                steady(from, events.min(BEFORE_HOLD), |switch, out| {
                    _ = switch.tick(out)
                })
            })
            .sum(),
        Case::Goto | Case::Get | Case::Refused | Case::Set => {
            let packet = asked(case);
            steady(from, events, |switch, out| _ = switch.receive(&packet, out))
        }
        Case::Edge => steady(from, events / 2, |switch, out| {
            switch.press(0, out);
            switch.release(0, out);
        }),
        Case::BothSend | Case::Factory => once(from, count, act),
        Case::Start => {
            let image = image();
            steady(from, events, |switch, _| *switch = P::start(&image))
        }
        Case::StartOver => {
            let image = image();
            steady(from, events, |switch, _| switch.start_over(&image))
        }
        Case::Restart => steady(from, events, |switch, out| _ = switch.restart(out)),
    }
}

/// An event that can follow itself, on one switch.
fn steady<P: Player>(from: &P, count: u64, event: impl Fn(&mut P, &mut [u8])) -> Duration {
    let (mut switch, mut out) = (from.clone(), [0; ROOM]);
    let begun = Instant::now();
    for _ in 0..count {
        event(&mut switch, &mut out);
    }
    let spent = begun.elapsed();
    black_box(&switch);
    spent
}

/// A tick that comes once: each on a switch of its own.
fn once<P: Player>(from: &P, count: u64, act: bool) -> Duration {
    let (mut batch, mut out) = (vec![from.clone(); BATCH], [0; ROOM]);
    let mut spent = Duration::ZERO;
    for _ in 0..count / BATCH as u64 {
        batch.iter_mut().for_each(|switch| switch.clone_from(from));
        black_box(&mut batch);
        let begun = Instant::now();
        if act {
            batch
                .iter_mut()
                .for_each(|switch| _ = switch.tick(&mut out));
        }
        spent += begun.elapsed();
    }
    spent
}
