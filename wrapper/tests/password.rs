//! What `Debug` shows hangs in no way on the password.

mod common;

use common::{image, packet, started, ticked, told, FILL};
use melszondru::{Switch, ROOM};

fn locked(password: [u8; 2]) -> Switch {
    let mut image = image();
    image[0x02..0x04].copy_from_slice(&password);
    started(&image)
}

/// Switches in several states, with that password.
fn switches(password: [u8; 2]) -> Vec<Switch> {
    let [first, second] = password;
    let open = told(locked(password), &[&[0x03, first, second]]);
    let mut down = ticked(locked(password), 500);
    down.press(2, &[FILL; ROOM]);
    vec![
        locked(password),
        told(locked(password), &[&[0x22, 100, 5]]),
        told(locked(password), &[&[0x25, 9]]),
        ticked(down, 70),
        open,
        // A password that was set in Setup, and not by the image.
        told(
            locked([0x55, 0x66]),
            &[&[0x03, 0x55, 0x66], &[0x11, 0x02, first, second], &[0x04]],
        ),
    ]
}

fn shown(switch: &Switch) -> [String; 3] {
    [
        format!("{switch:?}"),
        format!("{switch:#?}"),
        format!("{switch:02X?}"),
    ]
}

#[test]
fn the_text_is_the_same_for_every_password() {
    let text = shown(&locked([0, 0]));
    for password in 0..=u16::MAX {
        let switch = locked(password.to_be_bytes());
        assert_eq!(switch.image()[2..4], password.to_be_bytes());
        assert!(shown(&switch) == text, "{password:04X}");
    }
}

#[test]
fn the_text_is_the_same_in_every_state() {
    let texts: Vec<_> = switches([0, 0]).iter().map(shown).collect();
    for password in [[0, 1], [0x12, 0x34], [0xA7, 0xC3], [0xFF, 0xFF]] {
        let found: Vec<_> = switches(password).iter().map(shown).collect();
        assert_eq!(found, texts);
    }
}

/// Passwords of bytes that no other figure of these switches has: neither of the two is there, in decimal or in hex.
#[test]
fn no_byte_of_the_password_is_in_the_text() {
    for password in [[0xA7, 0xC3], [0xFB, 0xFC], [0xE9, 0x9E], [0xBD, 0xDB]] {
        for switch in switches(password) {
            assert_eq!(switch.image()[2..4], password);
            for text in shown(&switch) {
                assert!(text.contains("password: withheld"));
                for byte in password {
                    let words: Vec<&str> = text.split(|c: char| !c.is_alphanumeric()).collect();
                    for form in [
                        format!("{byte}"),
                        format!("{byte:x}"),
                        format!("{byte:X}"),
                        format!("0x{byte:x}"),
                        format!("0x{byte:X}"),
                    ] {
                        assert!(!words.contains(&form.as_str()), "{form} in {text}");
                    }
                }
                let [first, second] = password;
                for form in [
                    format!("{first:02x}{second:02x}"),
                    format!("{first:02X}{second:02X}"),
                    format!("{}", u16::from_be_bytes(password)),
                    format!("{}", u16::from_le_bytes(password)),
                ] {
                    assert!(!text.contains(&form), "{form} in {text}");
                }
            }
        }
    }
}

/// It is no empty text: what runs in the switch is there.
#[test]
fn the_text_shows_what_runs() {
    let text = |switch: &Switch| format!("{switch:?}");
    let fresh = text(&locked([0x12, 0x34]));
    assert!(fresh.starts_with("Switch { mode: Normal, level: 80, last: 200, motion: Idle, lamp: "));
    assert!(fresh.contains("version: 480"));
    let all = switches([0x12, 0x34]);
    assert!(text(&all[1]).contains("motion: Fading { target: 200, period: 8, left: 7 }"));
    assert!(text(&all[2]).contains("motion: Blinking { period: 36, left: 35 }"));
    assert!(text(&all[3]).contains("paddles: [Paddle { local: false, slave: true,"));
    assert!(text(&all[4]).contains("mode: Setup"));
}

/// The reply of Get Registers hides the password outside Setup; the answer and its packets show no more than was sent.
#[test]
fn an_answer_shows_no_password() {
    let mut switch = locked([0xA7, 0xC3]);
    let mut out = [FILL; ROOM];
    let asks = packet(0, 1, 5, 9, &[0x10, 0x00, 4]);
    let answer = switch.receive(&asks, &mut out).done().unwrap();
    assert_eq!(
        answer.packets(&out).collect::<Vec<_>>(),
        [packet(0, 1, 9, 5, &[0x90, 0, 1, 5, 0, 0])]
    );
    let text = format!("{answer:?} {:?}", answer.packets(&out));
    assert!(!text.contains("167") && !text.contains("195"));
}
