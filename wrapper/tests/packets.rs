//! The packets that an event sent, as stretches of the caller's buffer.

mod common;

use common::{image, packet, started, FILL};
use melszondru::{Answer, PADDLES, PLACE, ROOM};

/// Both paddles tapped once together: two packets at one tick. The top tells link 10 the percent, the bottom sends link 11 the
/// first entry of the command table.
fn both(out: &mut [u8]) -> Answer {
    let mut image = image();
    image[0x70..0x72].copy_from_slice(&[10, 14]);
    image[0x75..0x77].copy_from_slice(&[11, 0]);
    image[0x90..0x93].copy_from_slice(&[0x20, 255, 255]);
    image[0x7A..0x82].copy_from_slice(&[100, 0, 100, 0, 100, 0, 100, 0]);
    let mut switch = started(&image);
    switch.press(0, out).done().unwrap();
    switch.press(1, out).done().unwrap();
    for _ in 0..60 {
        switch.tick(out).done().unwrap();
    }
    switch.release(0, out).done().unwrap();
    switch.release(1, out).done().unwrap();
    loop {
        out.fill(FILL);
        let answer = switch.tick(out);
        if answer.count() > 0 {
            return answer;
        }
    }
}

#[test]
fn two_packets_are_two_slices_in_their_order() {
    let mut out = [0; ROOM + 2];
    let answer = both(&mut out);
    assert_eq!((answer.count(), answer.lengths()), (PADDLES, [8, 7]));
    let sent: Vec<&[u8]> = answer.packets(&out).collect();
    assert_eq!(
        sent,
        [
            packet(1, 1, 10, 5, &[0x86, 100]),
            packet(1, 1, 11, 5, &[0x20])
        ]
    );
    assert!(std::ptr::eq(sent[0], &out[..8]));
    assert!(std::ptr::eq(sent[1], &out[PLACE..PLACE + 7]));
    assert!(out[8..PLACE].iter().all(|byte| *byte == FILL));
    assert!(out[PLACE + 7..].iter().all(|byte| *byte == FILL));
}

#[test]
fn it_knows_how_many_are_left() {
    let mut out = [0; ROOM];
    let mut packets = both(&mut out).packets(&out);
    for (left, length) in [(2, 8), (1, 7)] {
        assert_eq!(packets.len(), left);
        assert_eq!(packets.clone().count(), left);
        assert_eq!(packets.next().map(<[u8]>::len), Some(length));
    }
    for _ in 0..3 {
        assert_eq!((packets.len(), packets.next()), (0, None));
    }
}

#[test]
fn nothing_sent_is_no_packet() {
    let mut out = [FILL; ROOM];
    let answer = started(&image()).tick(&mut out);
    assert_eq!(answer.count(), 0);
    assert_eq!(answer.packets(&out).next(), None);
}

/// A press and a restart only read the buffer: packets can be taken from it meanwhile.
#[test]
fn what_sends_nothing_leaves_the_packets_to_be_taken() {
    let mut out = [0; ROOM];
    let packets = both(&mut out).packets(&out);
    let mut other = started(&image());
    other.press(0, &out).done().unwrap();
    other.restart(&out).done().unwrap();
    assert_eq!(packets.len(), PADDLES);
}

/// A buffer that the event was not lent gives no packet from outside it, whatever its length.
#[test]
fn a_packet_that_is_not_within_the_buffer_is_left_out() {
    let mut out = [0; ROOM];
    let answer = both(&mut out);
    for (length, count) in [(0, 0), (7, 0), (8, 1), (24, 1), (30, 1), (31, 2), (48, 2)] {
        assert_eq!(answer.packets(&out[..length]).count(), count, "{length}");
    }
}

#[test]
fn debug_shows_the_packets_and_nothing_else_of_the_buffer() {
    let mut out = [0; ROOM];
    let packets = both(&mut out).packets(&out);
    let shown: Vec<&[u8]> = packets.clone().collect();
    assert_eq!(format!("{packets:?}"), format!("{shown:?}"));
}
