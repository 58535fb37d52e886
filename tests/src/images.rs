//! Register images to start from, and sensible values to write into registers later.

use crate::random::Random;

/// Few links, so that components share them and packets meet them.
pub const LINKS: [u8; 6] = [3, 7, 9, 20, 254, 1];

const VERBS: [u8; 9] = [0x20, 0x21, 0x22, 0x23, 0x24, 0x25, 0x22, 0x23, 0x30];

#[derive(Clone, Copy)]
enum Kind {
    Sensible,
    Nobody,
    Random,
    Zeros,
    Ones,
}

pub fn image(random: &mut Random) -> [u8; 256] {
    let kinds = [
        (72, Kind::Sensible),
        (8, Kind::Nobody),
        (13, Kind::Random),
        (3, Kind::Zeros),
        (4, Kind::Ones),
    ];
    match random.weighted(&kinds) {
        Kind::Sensible => sensible(random),
        Kind::Nobody => nobody(random),
        Kind::Random => noise(random),
        Kind::Zeros => [0; 256],
        Kind::Ones => [255; 256],
    }
}

pub fn sensible(random: &mut Random) -> [u8; 256] {
    let mut image = noise(random);
    image[0] = random.weighted(&[(8, 1), (1, 255), (1, 77)]);
    image[1] = random.weighted(&[(8, 5), (1, 1), (1, 255)]);
    if random.chance(60) {
        image[2..4].copy_from_slice(&[0x12, 0x34]);
    }
    for component in image[0x40..0x70].chunks_mut(3) {
        component.copy_from_slice(&[receive_link(random), level(random), rate(random)]);
    }
    for component in image[0x70..0x7A].chunks_mut(5) {
        component[0] = transmit_link(random);
        component[1..].fill_with(|| command_number(random));
    }
    for action in image[0x7A..0x82].chunks_mut(2) {
        action.copy_from_slice(&[level(random), rate(random)]);
    }
    image[0x8D] = dimmer_options(random);
    for entry in image[0x90..0xBA].chunks_mut(3) {
        entry.copy_from_slice(&table_entry(random));
    }
    image[0xF9] = saved_level(random);
    image[0xFA] = counter(random);
    image[0xFC] = counter(random);
    image
}

/// A level in percent, often at or past an end of its range.
pub fn level(random: &mut Random) -> u8 {
    match random.below(10) {
        0 => 0,
        1 => 100,
        2 => 101,
        3 => 255,
        4 => random.byte(),
        _ => random.byte_between(0, 100),
    }
}

/// A rate, mostly one whose fades end within a script.
pub fn rate(random: &mut Random) -> u8 {
    match random.below(10) {
        0 | 1 => 0,
        2 => random.byte_between(0, 15),
        3 => 16,
        4 => 255,
        5 => random.byte(),
        _ => random.byte_between(1, 5),
    }
}

fn noise(random: &mut Random) -> [u8; 256] {
    std::array::from_fn(|_| random.byte())
}

/// Sensible, but with unit or network 0.
fn nobody(random: &mut Random) -> [u8; 256] {
    let mut image = sensible(random);
    let which = random.below(3);
    if which != 0 {
        image[0] = 0;
    }
    if which != 1 {
        image[1] = 0;
    }
    image
}

fn receive_link(random: &mut Random) -> u8 {
    match random.below(10) {
        0 => 0,
        1 | 2 => 255,
        3 => random.byte(),
        _ => random.pick(&LINKS),
    }
}

fn transmit_link(random: &mut Random) -> u8 {
    match random.below(12) {
        0 => 0,
        1 => 255,
        2 => random.byte(),
        _ => random.pick(&LINKS),
    }
}

fn command_number(random: &mut Random) -> u8 {
    let low = match random.below(8) {
        0 => 14,
        1 => 15,
        _ => random.byte_between(0, 15),
    };
    let high = if random.chance(50) {
        0
    } else {
        random.byte() & 0xF0
    };
    high | low
}

fn dimmer_options(random: &mut Random) -> u8 {
    let rate = if random.chance(70) {
        random.byte_between(0, 5)
    } else {
        random.byte_between(0, 15)
    };
    let capable = if random.chance(75) { 0x10 } else { 0 };
    let rest = if random.chance(50) {
        0
    } else {
        random.byte() & 0xE0
    };
    rest | capable | rate
}

fn table_entry(random: &mut Random) -> [u8; 3] {
    let verb = match random.below(10) {
        0 => 255,
        1 => random.byte(),
        _ => random.pick(&VERBS),
    };
    match random.below(4) {
        0 => [verb, 255, 255],
        1 => [verb, level(random), 255],
        2 => [verb, 255, random.byte()],
        _ => [verb, level(random), rate(random)],
    }
}

fn saved_level(random: &mut Random) -> u8 {
    match random.below(8) {
        0 => 0,
        1 => 100,
        2 => 101,
        3 => random.byte_between(101, 255),
        _ => random.byte_between(0, 100),
    }
}

fn counter(random: &mut Random) -> u8 {
    if random.chance(60) {
        random.byte_between(252, 255)
    } else {
        random.byte()
    }
}
