//! Cases of document 01's "Numbers to test by", through the wrapper.

mod common;

use common::{image, started, FILL};
use melszondru::{Answer, Mode, Refusal, Switch, ROOM};

fn received(packet: &[u8]) -> (Switch, Answer, [u8; ROOM]) {
    let mut switch = started(&image());
    let mut out = [FILL; ROOM];
    let answer = switch.receive(packet, &mut out);
    (switch, answer, out)
}

#[test]
fn a_report_is_answered_by_the_percent() {
    let (_, answer, out) = received(&[0x07, 0x00, 0x01, 0x05, 0x09, 0x30, 0xBA]);
    assert_eq!(
        (answer.number(), answer.count(), answer.lengths()),
        (0, 1, [8, 0])
    );
    let sent: Vec<&[u8]> = answer.packets(&out).collect();
    assert_eq!(sent, [[0x08, 0x00, 0x01, 0x09, 0x05, 0x86, 0x28, 0x3B]]);
    assert!(out[8..].iter().all(|byte| *byte == FILL));
}

#[test]
fn goto_by_link_snaps() {
    let (_, answer, out) = received(&[0x89, 0x00, 0x01, 0x03, 0x09, 0x22, 0x32, 0x00, 0x16]);
    assert_eq!(
        (answer.number(), answer.level(), answer.output()),
        (0, 100, 100)
    );
    assert_eq!(out, [FILL; ROOM]);
}

#[test]
fn the_right_password_enters_setup_and_another_is_14() {
    let (_, answer, _) = received(&[0x09, 0x00, 0x01, 0x05, 0x09, 0x03, 0x12, 0x34, 0x9F]);
    assert_eq!((answer.refusal(), answer.mode()), (None, Mode::Setup));
    let (switch, answer, out) = received(&[0x09, 0x00, 0x01, 0x05, 0x09, 0x03, 0x12, 0x35, 0x9E]);
    assert_eq!(
        (answer.refusal(), answer.mode()),
        (Some(Refusal::WrongPassword), Mode::Normal)
    );
    assert_eq!(out, [FILL; ROOM]);
    assert_eq!(switch, started(&image()));
}

#[test]
fn a_wrong_sum_is_7_and_changes_the_lamp_alone() {
    let (switch, answer, out) = received(&[0x07, 0x00, 0x01, 0x05, 0x09, 0x30, 0xBB]);
    assert_eq!(answer.refusal(), Some(Refusal::WrongSum));
    assert_eq!(out, [FILL; ROOM]);
    assert_ne!(switch, started(&image()));
    assert_eq!(switch.image(), started(&image()).image());
}

#[test]
fn a_start_takes_256_bytes_and_nothing_else() {
    for length in [0, 1, 255, 257, 4096] {
        let refused = Switch::start(&vec![0; length]);
        assert_eq!(refused.err(), Some(Refusal::WrongImage));
    }
    let mut counted = image();
    counted[0xFC] += 1;
    assert_eq!(started(&image()).image(), counted);
}
