//! Each refusal is given by the event that its number is about, and its number, name and meaning belong together.

mod common;

use common::{direct, image, packet, started, told, FILL};
use melszondru::{Answer, NoSuchNumber, Refusal, Switch, PADDLES, ROOM};

/// What the event is refused by, after it is seen that nothing else was done.
fn refused(switch: &Switch, event: impl Fn(&mut Switch, &mut [u8]) -> Answer) -> Refusal {
    let mut after = switch.clone();
    let mut out = [FILL; ROOM];
    let answer = event(&mut after, &mut out);
    let refusal = answer.refusal().expect("a refusal");
    assert_eq!(answer.done(), Err(refusal));
    assert_eq!(answer.number(), refusal.number());
    assert_eq!((answer.count(), answer.lengths()), (0, [0; PADDLES]));
    assert_eq!(answer.packets(&out).len(), 0);
    assert_eq!(out, [FILL; ROOM]);
    assert_eq!(after.image(), switch.image());
    let blinks = (4..=8).contains(&refusal.number());
    assert_eq!(after == *switch, !blinks, "{refusal}");
    refusal
}

fn received(switch: &Switch, packet: &[u8]) -> Refusal {
    refused(switch, |switch, out| switch.receive(packet, out))
}

#[test]
fn a_short_buffer_is_2_whatever_the_event() {
    let switch = started(&image());
    for room in [0, 1, ROOM - 1] {
        for event in 0..5 {
            let refusal = refused(&switch, |switch, out| match event {
                0 => switch.press(0, &out[..room]),
                1 => switch.release(0, &mut out[..room]),
                2 => switch.tick(&mut out[..room]),
                3 => switch.receive(&direct(&[0x30]), &mut out[..room]),
                _ => switch.restart(&out[..room]),
            });
            assert_eq!(refusal, Refusal::ShortBuffer);
        }
    }
}

#[test]
fn an_unknown_contact_is_3() {
    let switch = started(&image());
    for contact in 4..=255 {
        let pressed = refused(&switch, |switch, out| switch.press(contact, out));
        let released = refused(&switch, |switch, out| switch.release(contact, out));
        assert_eq!(
            (pressed, released),
            (Refusal::NoContact, Refusal::NoContact)
        );
    }
}

#[test]
fn a_packet_that_cannot_be_read_is_4_to_8() {
    let switch = started(&image());
    let well = direct(&[0x30]);
    assert_eq!(received(&switch, &[]), Refusal::ShortPacket);
    assert_eq!(received(&switch, &well[..6]), Refusal::ShortPacket);
    assert_eq!(received(&switch, &[0; 25]), Refusal::LongPacket);
    assert_eq!(received(&switch, &[0; 24]), Refusal::WrongLength);
    let mut changed = well.clone();
    changed[6] ^= 1;
    assert_eq!(received(&switch, &changed), Refusal::WrongSum);
    let mut reserved = well;
    reserved[1] ^= 0x80;
    reserved[6] ^= 0x80;
    assert_eq!(received(&switch, &reserved), Refusal::ReservedBit);
}

#[test]
fn a_packet_that_asks_in_vain_is_9_to_14() {
    let switch = started(&image());
    let of = |link, network, destination, message: &[u8]| {
        received(&switch, &packet(link, network, destination, 9, message))
    };
    assert_eq!(of(0, 2, 5, &[0x30]), Refusal::OtherNetwork);
    assert_eq!(of(0, 1, 6, &[0x30]), Refusal::OtherDestination);
    assert_eq!(of(1, 1, 4, &[0x20]), Refusal::OtherDestination);
    assert_eq!(of(0, 1, 5, &[0x7F]), Refusal::NoCommand);
    assert_eq!(of(0, 1, 5, &[0x30, 0]), Refusal::WrongArguments);
    assert_eq!(of(0, 1, 5, &[0x10, 0xFF, 2]), Refusal::WrongArguments);
    assert_eq!(of(0, 1, 5, &[0x20]), Refusal::NotHere);
    assert_eq!(of(0, 1, 5, &[0x11, 0x40, 0]), Refusal::NotHere);
    assert_eq!(of(0, 1, 5, &[0x03, 0x12, 0x33]), Refusal::WrongPassword);
}

/// Start Setup is not for a switch that is in Setup already.
#[test]
fn a_refusal_shows_the_switch_as_it_stands() {
    let mut switch = told(started(&image()), &[&[0x03, 0x12, 0x34]]);
    let shown = |answer: Answer| (answer.level(), answer.output(), answer.mode());
    let stands = shown(switch.tick(&mut [FILL; ROOM]));
    let answer = switch.receive(&direct(&[0x03, 0x12, 0x34]), &mut [FILL; ROOM]);
    assert_eq!(answer.refusal(), Some(Refusal::NotHere));
    assert_eq!(shown(answer), stands);
    assert!(format!("{answer:?}").starts_with("Answer { number: 13, count: 0, "));
}

#[test]
fn what_is_done_is_no_refusal() {
    let (mut switch, answer) = Switch::start(&image()).unwrap();
    assert_eq!((answer.refusal(), answer.done()), (None, Ok(answer)));
    let answer = switch.tick(&mut [FILL; ROOM]);
    assert_eq!((answer.refusal(), answer.done()), (None, Ok(answer)));
}

#[test]
fn the_numbers_are_1_to_14_and_no_others() {
    for number in 0..=255 {
        let refusal = Refusal::try_from(number);
        if let 1..=14 = number {
            let refusal = refusal.unwrap();
            assert_eq!(refusal, Refusal::ALL[usize::from(number) - 1]);
            assert_eq!((refusal.number(), u8::from(refusal)), (number, number));
        } else {
            assert_eq!(refusal, Err(NoSuchNumber(number)));
        }
    }
}

/// For a caller who hands errors on: `?` takes a refusal into a boxed error, and what is printed says the number and its meaning.
#[test]
fn a_refusal_is_an_error_that_says_why() {
    let fails = || -> Result<(), Box<dyn std::error::Error>> {
        Switch::start(&[])?;
        Ok(())
    };
    let said = fails().unwrap_err().to_string();
    assert_eq!(said, "refused by 1: the image is not 256 bytes");
    let mut meanings: Vec<&str> = Refusal::ALL.iter().map(|r| r.meaning()).collect();
    for refusal in Refusal::ALL {
        let said = refusal.to_string();
        assert!(said.contains(&format!("by {}:", refusal.number())));
        assert!(said.ends_with(refusal.meaning()));
    }
    meanings.sort_unstable();
    meanings.dedup();
    assert_eq!(meanings.len(), 14);
    let unknown: Box<dyn std::error::Error> = Box::new(NoSuchNumber(15));
    assert_eq!(unknown.to_string(), "the number 15 stands for nothing here");
}
