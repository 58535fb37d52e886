//! Plans of events from a seed, and the scripts written from them.

use crate::errands;
use crate::images;
use crate::levels;
use crate::packets;
use crate::paddles;
use crate::play::Play;
use crate::random::Random;
use crate::text;
use crate::visits;

#[derive(Clone, Debug, PartialEq, Eq)]
pub enum Event {
    /// From now on the lent buffer has so many bytes; 48 before the first.
    Room(usize),
    Press(u8),
    Release(u8),
    Ticks(u32),
    Packet(Vec<u8>),
    Restart,
    Dump,
}

#[derive(Clone, Debug, PartialEq, Eq)]
pub struct Plan {
    /// The 256 registers of the start.
    pub image: Vec<u8>,
    pub events: Vec<Event>,
}

const FEWEST: usize = 50;
const MOST: usize = 400;
/// Events before the errand, at most, but for those of the last piece.
const LATEST_ERRAND: u32 = 120;
/// Ticks after which a script of enough events ends.
const TICKS: u32 = 17_000;

type Piece = fn(&mut Play);

const MIXED: &[(u32, Piece)] = &[
    (6, paddles::taps),
    (4, paddles::boundaries),
    (3, paddles::hold),
    (2, paddles::together),
    (2, paddles::overlap),
    (1, paddles::scramble),
    (2, paddles::late),
    (2, paddles::both_held),
    (1, paddles::odd_edges),
    (6, packets::level),
    (8, packets::sloppy),
    (6, packets::damaged),
    (4, packets::get),
    (2, packets::try_password),
    (3, levels::fade),
    (3, levels::blink),
    (2, levels::lamp),
    (2, levels::idle),
    (1, levels::save),
    (2, levels::other_room),
    (2, visits::setup),
    (1, visits::hold_across),
    (1, visits::restart),
    (1, visits::version),
    (2, Play::dump),
];

const PADDLES: &[(u32, Piece)] = &[
    (6, paddles::taps),
    (6, paddles::act),
    (5, paddles::boundaries),
    (5, paddles::hold),
    (6, paddles::together),
    (3, paddles::overlap),
    (2, paddles::scramble),
    (3, paddles::late),
    (5, paddles::both_held),
    (1, paddles::odd_edges),
    (3, packets::level),
    (1, visits::hold_across),
    (1, visits::restart),
];

const PACKETS: &[(u32, Piece)] = &[
    (16, packets::sloppy),
    (8, packets::level),
    (8, packets::damaged),
    (5, packets::get),
    (5, packets::try_password),
    (3, levels::lamp),
    (1, levels::hidden_lamp),
    (3, levels::idle),
    (2, levels::other_room),
    (2, visits::setup),
    (1, visits::restart),
    (1, Play::dump),
];

const SETUP: &[(u32, Piece)] = &[
    (8, visits::setup),
    (3, visits::factory),
    (2, visits::straight_to_factory),
    (3, visits::hold_across),
    (3, paddles::together),
    (3, paddles::act),
    (2, visits::version),
    (2, packets::try_password),
    (4, packets::level),
    (3, packets::get),
    (2, packets::sloppy),
    (1, levels::idle),
    (1, visits::restart),
    (1, Play::dump),
];

const LEVELS: &[(u32, Piece)] = &[
    (8, levels::fade),
    (5, levels::blink),
    (5, levels::last_on),
    (4, levels::save),
    (4, levels::preset),
    (2, levels::lamp),
    (2, levels::hidden_lamp),
    (2, levels::idle),
    (1, levels::long_idle),
    (6, packets::level),
    (4, paddles::act),
    (4, paddles::hold),
    (1, visits::setup),
    (1, visits::restart),
];

const THEMES: &[(u32, &[(u32, Piece)])] = &[
    (30, MIXED),
    (20, PADDLES),
    (15, PACKETS),
    (20, SETUP),
    (15, LEVELS),
];

pub fn plan(seed: u64) -> Plan {
    let mut random = Random::new(seed);
    let registers = images::image(&mut random);
    let theme = random.weighted(THEMES);
    let wanted = random.between(FEWEST as u32, MOST as u32) as usize;
    let ending = random.below(150);
    let mut play = Play::new(random, registers);
    // Some scripts see the version blinks out, some begin under them.
    if play.random.chance(40) {
        play.wait(480);
    }
    let due = play.random.below(LATEST_ERRAND) as usize;
    fill(&mut play, theme, due.min(wanted));
    errands::run(&mut play, seed);
    fill(&mut play, theme, wanted);
    play.events.truncate(MOST - 10);
    match ending {
        0 => levels::slowest(&mut play),
        1..=4 => paddles::long_hold(&mut play),
        _ => {}
    }
    play.dump();
    Plan {
        image: registers.to_vec(),
        events: play.events,
    }
}

/// Adds pieces up to so many events, or until enough time has passed.
fn fill(play: &mut Play, theme: &[(u32, Piece)], wanted: usize) {
    while play.events.len() < wanted && (play.events.len() < FEWEST || play.passed < TICKS) {
        let piece = play.random.weighted(theme);
        piece(play);
    }
}

pub fn script(seed: u64) -> Vec<u8> {
    text::write(&plan(seed), seed)
}
