//! The packet layout: reading a received packet, and laying sent packets into
//! the two places of the lent buffer.

use crate::answer::{LONG_PACKET, RESERVED_SET, SHORT_PACKET, WRONG_LENGTH, WRONG_SUM};

pub const SHORTEST: usize = 7;
pub const LONGEST: usize = 24;
pub const BUFFER: usize = 2 * LONGEST;

const LINK_BIT: u8 = 0x80;
const LENGTH_BITS: u8 = 0x1F;
const RESERVED_BIT: u8 = 0x80;
const MESSAGE: usize = 5;

pub struct Received<'a> {
    pub link: bool,
    pub network: u8,
    pub destination: u8,
    pub source: u8,
    pub message: &'a [u8],
}

/// Refuses with 4 to 8.
pub fn read(packet: &[u8]) -> Result<Received<'_>, u8> {
    if packet.len() < SHORTEST {
        return Err(SHORT_PACKET);
    }
    if packet.len() > LONGEST {
        return Err(LONG_PACKET);
    }
    if (packet[0] & LENGTH_BITS) as usize != packet.len() {
        return Err(WRONG_LENGTH);
    }
    if sum(packet) != 0 {
        return Err(WRONG_SUM);
    }
    if packet[1] & RESERVED_BIT != 0 {
        return Err(RESERVED_SET);
    }
    Ok(Received {
        link: packet[0] & LINK_BIT != 0,
        network: packet[2],
        destination: packet[3],
        source: packet[4],
        message: &packet[MESSAGE..packet.len() - 1],
    })
}

fn sum(bytes: &[u8]) -> u8 {
    bytes.iter().fold(0, |sum, &byte| sum.wrapping_add(byte))
}

/// Where a packet goes to and comes from.
pub struct Address {
    pub link: bool,
    pub network: u8,
    pub destination: u8,
    pub source: u8,
}

/// The packets that one event sends.
pub struct Sent<'a> {
    out: &'a mut [u8],
    pub count: u8,
    pub lengths: [u8; 2],
}

impl<'a> Sent<'a> {
    /// `out` holds at least 48 bytes.
    #[inline]
    pub fn new(out: &'a mut [u8]) -> Sent<'a> {
        Sent {
            out,
            count: 0,
            lengths: [0; 2],
        }
    }

    /// Into the next free place; nothing else is written.
    pub fn send(&mut self, address: &Address, message: &[u8]) {
        let place = self.count as usize;
        let length = message.len() + MESSAGE + 1;
        let packet = &mut self.out[place * LONGEST..][..length];
        packet[0] = length as u8 | if address.link { LINK_BIT } else { 0 };
        packet[1] = 0;
        packet[2] = address.network;
        packet[3] = address.destination;
        packet[4] = address.source;
        packet[MESSAGE..length - 1].copy_from_slice(message);
        packet[length - 1] = sum(&packet[..length - 1]).wrapping_neg();
        self.lengths[place] = length as u8;
        self.count += 1;
    }
}
