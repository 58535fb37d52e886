//! Packets to the switch: well made ones, ones with something amiss, and damaged ones.

use crate::images::{self, LINKS};
use crate::play::Play;
use crate::random::Random;

pub const START: u8 = 0x03;
pub const STOP: u8 = 0x04;
pub const GET: u8 = 0x10;
pub const SET: u8 = 0x11;
pub const ACTIVATE: u8 = 0x20;
pub const DEACTIVATE: u8 = 0x21;
pub const GOTO: u8 = 0x22;
pub const FADE_START: u8 = 0x23;
pub const FADE_STOP: u8 = 0x24;
pub const BLINK: u8 = 0x25;
pub const REPORT: u8 = 0x30;
pub const STORE: u8 = 0x31;

const COMMANDS: [u8; 12] = [
    START, STOP, GET, SET, ACTIVATE, DEACTIVATE, GOTO, FADE_START, FADE_STOP, BLINK, REPORT, STORE,
];

const UNLISTED: [u8; 10] = [0x86, 0x90, 0x00, 0x02, 0x05, 0x12, 0x1F, 0x26, 0x32, 0xFF];

/// Where the tables of the register map begin and end, with their neighbours.
const PLACES: [u8; 22] = [
    0x00, 0x01, 0x02, 0x03, 0x04, 0x0B, 0x10, 0x3F, 0x40, 0x6F, 0x70, 0x75, 0x7A, 0x81, 0x8B, 0x8D,
    0x90, 0xB9, 0xF9, 0xFA, 0xFC, 0xFF,
];

#[derive(Clone, Copy)]
pub struct Address {
    pub link: bool,
    pub network: u8,
    pub destination: u8,
    pub source: u8,
}

/// The bytes with the checksum that makes their sum 0.
pub fn sealed(mut bytes: Vec<u8>) -> Vec<u8> {
    let sum = bytes.iter().fold(0u8, |sum, &byte| sum.wrapping_add(byte));
    bytes.push(sum.wrapping_neg());
    bytes
}

/// A packet with right length field and checksum; `repeat` has two bits, `marks` seven.
pub fn packet(address: Address, repeat: u8, marks: u8, message: &[u8]) -> Vec<u8> {
    let length = (message.len() + 6) as u8 & 0x1F;
    let first = u8::from(address.link) << 7 | (repeat & 3) << 5 | length;
    let mut bytes = vec![first, marks & 0x7F];
    bytes.extend([address.network, address.destination, address.source]);
    bytes.extend(message);
    sealed(bytes)
}

/// Sends a message to the switch itself.
pub fn direct(play: &mut Play, message: &[u8]) {
    let address = own(play);
    deliver(play, address, message);
}

/// Sends a message to a link the switch has, if it has any.
pub fn linked(play: &mut Play, message: &[u8]) {
    let address = met(play);
    deliver(play, address, message);
}

/// Sends a message from source 0, by a link or, without one, to the switch itself.
pub fn from_nobody(play: &mut Play, link: Option<u8>, message: &[u8]) {
    let address = Address {
        link: link.is_some(),
        network: play.belief.network(),
        destination: link.unwrap_or(play.belief.unit()),
        source: 0,
    };
    deliver(play, address, message);
}

/// Sends a message from source 0 to destination 0 on network 0.
pub fn to_all_from_nobody(play: &mut Play, message: &[u8]) {
    let address = Address {
        link: false,
        network: 0,
        destination: 0,
        source: 0,
    };
    deliver(play, address, message);
}

/// Start Setup with the right password.
pub fn start_setup(play: &mut Play) {
    let [first, second] = play.belief.password();
    direct(play, &[START, first, second]);
}

/// Start Setup with a password that is mostly wrong in one byte.
pub fn try_password(play: &mut Play) {
    let [first, second] = play.belief.password();
    let other = play.random.byte_between(1, 255);
    let guess = match play.random.below(7) {
        0 | 1 => [first ^ other, second],
        2 | 3 => [first, second ^ other],
        4 => [second, first],
        5 => [0, 0],
        _ => [first, second],
    };
    direct(play, &[START, guess[0], guess[1]]);
}

/// A command that moves or stores the level, by link or direct.
pub fn level(play: &mut Play) {
    let by_link = play.random.chance(50);
    let choices = if by_link {
        [
            ACTIVATE, DEACTIVATE, STORE, GOTO, FADE_START, FADE_STOP, BLINK, GOTO,
        ]
    } else {
        [
            GOTO, FADE_START, FADE_STOP, BLINK, REPORT, GOTO, FADE_START, REPORT,
        ]
    };
    let command = play.random.pick(&choices);
    let message = message(play, command);
    if by_link {
        linked(play, &message);
    } else {
        direct(play, &message);
    }
}

/// Get Registers, mostly over or beside the password.
pub fn get(play: &mut Play) {
    let near = [
        (0, 4),
        (0, 16),
        (1, 2),
        (1, 16),
        (2, 1),
        (2, 2),
        (3, 1),
        (3, 16),
        (0, 2),
        (4, 1),
    ];
    let arguments = if play.random.chance(60) {
        let (first, count) = play.random.pick(&near);
        vec![first, count]
    } else {
        get_range(&mut play.random)
    };
    direct(play, &[&[GET], arguments.as_slice()].concat());
}

/// Set Registers with values that keep the switch worth playing with.
pub fn set(play: &mut Play) {
    let message = message(play, SET);
    direct(play, &message);
}

/// Any command to anyone, with one thing or another amiss.
pub fn sloppy(play: &mut Play) {
    let command = match play.random.below(10) {
        0 => play.random.pick(&UNLISTED),
        1 => play.random.byte(),
        _ => play.random.pick(&COMMANDS),
    };
    let mut message = message(play, command);
    if play.random.chance(25) {
        misshape(&mut play.random, &mut message);
    }
    let address = stray(play);
    deliver(play, address, &message);
}

/// A packet that 4 to 8 refuse, save for lucky hits.
pub fn damaged(play: &mut Play) {
    let command = play.random.pick(&COMMANDS);
    let message = message(play, command);
    let address = if play.random.chance(50) {
        own(play)
    } else {
        met(play)
    };
    let whole = packet(address, 0, 0, &message);
    let hurt = hurt(&mut play.random, whole);
    play.send(hurt);
}

/// The command with arguments of the right count.
pub fn message(play: &mut Play, command: u8) -> Vec<u8> {
    let arguments = match command {
        START => guess(play),
        GET => get_range(&mut play.random),
        SET => set_range(&mut play.random),
        GOTO | FADE_START => setting(&mut play.random),
        BLINK => blink_value(&mut play.random),
        STOP | ACTIVATE | DEACTIVATE | FADE_STOP | REPORT | STORE => Vec::new(),
        _ => {
            let count = play.random.index(4);
            play.random.bytes(count)
        }
    };
    [&[command], arguments.as_slice()].concat()
}

fn deliver(play: &mut Play, address: Address, message: &[u8]) {
    let plain = play.random.chance(50);
    let (repeat, marks) = if plain {
        (0, 0)
    } else {
        (play.random.byte(), play.random.byte())
    };
    play.send(packet(address, repeat, marks, message));
}

fn own(play: &mut Play) -> Address {
    let network = if play.random.chance(15) {
        0
    } else {
        play.belief.network()
    };
    let source = play.random.weighted(&[(6, 9), (1, 1), (1, 5), (1, 255)]);
    Address {
        link: false,
        network,
        destination: play.belief.unit(),
        source,
    }
}

fn met(play: &mut Play) -> Address {
    let links = play.belief.links();
    let destination = play
        .random
        .pick(if links.is_empty() { &LINKS } else { &links });
    Address {
        link: true,
        destination,
        ..own(play)
    }
}

/// An address of which each part may be another's.
fn stray(play: &mut Play) -> Address {
    let mut address = if play.random.chance(50) {
        own(play)
    } else {
        met(play)
    };
    if play.random.chance(20) {
        address.link = !address.link;
    }
    if play.random.chance(10) {
        address.network = play.random.byte();
    }
    if play.random.chance(25) {
        address.destination = play.random.pick(&[0, 0, 0, 255, 6, 8, 253]);
    }
    if play.random.chance(15) {
        address.source = 0;
    }
    address
}

/// A password: right, or with either or both bytes wrong.
fn guess(play: &mut Play) -> Vec<u8> {
    let [first, second] = play.belief.password();
    let other = play.random.byte_between(1, 255);
    match play.random.below(8) {
        0 => vec![first ^ other, second],
        1 => vec![first, second ^ other],
        2 => vec![second, first],
        3 => vec![0x12, 0x34],
        4 => play.random.bytes(2),
        _ => vec![first, second],
    }
}

fn setting(random: &mut Random) -> Vec<u8> {
    let level = images::level(random);
    if random.chance(30) {
        vec![level]
    } else {
        vec![level, images::rate(random)]
    }
}

fn blink_value(random: &mut Random) -> Vec<u8> {
    match random.below(8) {
        0 => Vec::new(),
        1 => vec![255],
        2 => vec![random.byte()],
        _ => vec![random.pick(&[0, 1, 2, 7, 15, 30, 31])],
    }
}

fn place(random: &mut Random) -> u8 {
    if random.chance(60) {
        random.pick(&PLACES)
    } else {
        random.byte()
    }
}

fn get_range(random: &mut Random) -> Vec<u8> {
    match random.below(10) {
        0 => vec![place(random), random.pick(&[0, 17, 255])],
        1 => {
            let count = random.byte_between(1, 16);
            vec![
                0u8.wrapping_sub(count)
                    .wrapping_add(random.byte_between(0, 1)),
                count,
            ]
        }
        _ => vec![place(random), random.byte_between(1, 16)],
    }
}

/// First register and values; sometimes up to the last register or past it.
fn set_range(random: &mut Random) -> Vec<u8> {
    let count = random.between(1, 16) as usize;
    let mut first = usize::from(place(random));
    if random.chance(10) {
        first = (256 - count + random.index(2)).min(255);
    }
    let mut arguments = vec![first as u8];
    if random.chance(15) {
        arguments.extend(random.bytes(count));
    } else {
        let source = images::sensible(random);
        arguments.extend(source.iter().cycle().skip(first).take(count));
    }
    arguments
}

/// Takes arguments away or adds some.
fn misshape(random: &mut Random, message: &mut Vec<u8>) {
    if message.len() > 1 && random.chance(50) {
        let keep = random.between(1, message.len() as u32 - 1) as usize;
        message.truncate(keep);
    } else {
        let longest = if random.chance(30) { 17 } else { 3 };
        let extra = random.between(1, longest) as usize;
        message.extend(random.bytes(extra));
    }
}

fn hurt(random: &mut Random, mut whole: Vec<u8>) -> Vec<u8> {
    let at = random.index(whole.len());
    match random.below(13) {
        0 => whole[at] ^= random.byte_between(1, 255),
        1 => whole[at] ^= 1 << random.below(8),
        2 => whole[1] |= 0x80,
        3 | 4 => return resealed(whole, |bytes| bytes[1] |= 0x80),
        5 => whole.truncate(at),
        6 => return resealed(whole, |bytes| bytes[0] ^= 1 << (at % 5)),
        7 => whole.extend(vec![0; at + 1]),
        8 => return oversized(random),
        9 => return Vec::new(),
        10 => return undersized(random),
        11 => return random.bytes(at + 1),
        _ => {
            let last = whole.len() - 1;
            whole[last] = whole[last].wrapping_add(random.pick(&[1, 255, 128]));
        }
    }
    whole
}

/// A change before the checksum, and the checksum made right again.
fn resealed(mut whole: Vec<u8>, change: impl Fn(&mut [u8])) -> Vec<u8> {
    whole.pop();
    change(&mut whole);
    sealed(whole)
}

/// Sound but for being over 24 bytes, as far as its length field can say so.
fn oversized(random: &mut Random) -> Vec<u8> {
    let length = random.weighted(&[(3, 25), (1, 31), (1, 32), (1, 255), (1, 256), (2, 40)]);
    let mut bytes = random.bytes(length - 1);
    bytes[0] = length as u8 & 0x1F;
    bytes[1] &= 0x7F;
    sealed(bytes)
}

/// Sound but for being under 7 bytes.
fn undersized(random: &mut Random) -> Vec<u8> {
    let length = random.between(1, 6) as usize;
    let mut bytes = random.bytes(length - 1);
    if let Some(first) = bytes.first_mut() {
        *first = length as u8;
    }
    sealed(bytes)
}

#[cfg(test)]
mod tests {
    use super::*;

    fn sum(bytes: &[u8]) -> u8 {
        bytes
            .iter()
            .fold(0, |sum: u8, &byte| sum.wrapping_add(byte))
    }

    #[test]
    fn the_packets_worked_out_by_hand() {
        let to_unit = Address {
            link: false,
            network: 1,
            destination: 5,
            source: 9,
        };
        assert_eq!(
            packet(to_unit, 0, 0, &[0x30]),
            [0x07, 0, 1, 5, 9, 0x30, 0xBA]
        );
        let start = packet(to_unit, 0, 0, &[0x03, 0x12, 0x34]);
        assert_eq!(start, [0x09, 0, 1, 5, 9, 3, 0x12, 0x34, 0x9F]);
        let to_link = Address {
            link: true,
            destination: 3,
            ..to_unit
        };
        let goto = packet(to_link, 0, 0, &[0x22, 0x32, 0]);
        assert_eq!(goto, [0x89, 0, 1, 3, 9, 0x22, 0x32, 0, 0x16]);
    }

    #[test]
    fn well_made_packets_sum_to_zero() {
        let mut random = Random::new(3);
        for length in 1..=18 {
            let address = Address {
                link: true,
                network: 1,
                destination: 9,
                source: 255,
            };
            let message = random.bytes(length);
            let bytes = packet(address, random.byte(), random.byte(), &message);
            assert_eq!(sum(&bytes), 0);
            assert_eq!(usize::from(bytes[0] & 0x1F), bytes.len());
            assert!(bytes[1] < 128);
        }
    }

    #[test]
    fn wrong_sizes_keep_a_right_sum() {
        let mut random = Random::new(4);
        for _ in 0..200 {
            let long = oversized(&mut random);
            assert!(sum(&long) == 0 && (25..=256).contains(&long.len()));
            let short = undersized(&mut random);
            assert!(sum(&short) == 0 && (1..7).contains(&short.len()));
        }
    }
}
