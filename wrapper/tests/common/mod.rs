//! A switch to try: network 1, unit 5, password 12 34, link 3, dimming capable, step 80.

#![allow(dead_code)]

use melszondru::{Switch, ROOM};

/// What a lent buffer is filled with, to see which bytes an event writes.
pub const FILL: u8 = 0xAA;

pub fn image() -> [u8; 256] {
    let mut image = [0; 256];
    image[0x00..0x04].copy_from_slice(&[1, 5, 0x12, 0x34]);
    image[0x40] = 3;
    image[0x8D] = 0x13;
    image[0xF9] = 40;
    image
}

pub fn started(image: &[u8]) -> Switch {
    Switch::start(image).expect("256 bytes").0
}

/// A packet from unit 9 to unit 5 of network 1.
pub fn direct(message: &[u8]) -> Vec<u8> {
    packet(0, 1, 5, 9, message)
}

pub fn packet(link: u8, network: u8, destination: u8, source: u8, message: &[u8]) -> Vec<u8> {
    let length = message.len() as u8 + 6;
    let mut bytes = vec![link << 7 | length, 0, network, destination, source];
    bytes.extend(message);
    let sum = bytes.iter().fold(0u8, |sum, byte| sum.wrapping_add(*byte));
    bytes.push(sum.wrapping_neg());
    bytes
}

/// Sends the messages to the switch, one after the other; each is done.
pub fn told(mut switch: Switch, messages: &[&[u8]]) -> Switch {
    for message in messages {
        let answer = switch.receive(&direct(message), &mut [FILL; ROOM]);
        assert_eq!(answer.number(), 0, "{message:02X?}");
    }
    switch
}

pub fn ticked(mut switch: Switch, ticks: usize) -> Switch {
    for _ in 0..ticks {
        assert_eq!(switch.tick(&mut [FILL; ROOM]).number(), 0);
    }
    switch
}
