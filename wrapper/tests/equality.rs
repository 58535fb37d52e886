//! Two switches are equal where they stand for the same switch, tried through the events alone. The unit tests of `live` try every
//! byte.

mod common;

use common::{image, started, ticked, told, FILL};
use melszondru::{Answer, Switch, ROOM};

const SNAPS: &[u8] = &[0x22, 50, 0];
const FADES: &[u8] = &[0x22, 50, 2];
const BLINKS: &[u8] = &[0x25, 7];

#[test]
fn what_a_replaced_fade_or_blink_left_behind_does_not_count() {
    let plain = told(started(&image()), &[SNAPS, SNAPS]);
    assert_eq!(told(started(&image()), &[FADES, SNAPS]), plain);
    assert_eq!(told(started(&image()), &[BLINKS, SNAPS]), plain);
    assert_ne!(told(started(&image()), &[FADES, FADES]), plain);
    assert_ne!(told(started(&image()), &[SNAPS, BLINKS]), plain);
}

/// From step 80 to 100 at 2 ticks to a step: 40 ticks.
#[test]
fn an_ended_fade_is_as_a_snap() {
    let faded = |ticks| ticked(told(started(&image()), &[FADES]), ticks);
    let snapped = |ticks| ticked(told(started(&image()), &[SNAPS]), ticks);
    assert_ne!(faded(39), snapped(39));
    assert_eq!(faded(40), snapped(40));
    assert_eq!(faded(600), snapped(600));
}

/// Neither blink is seen any more, and yet the two are not equal: the definitions keep the colour.
#[test]
fn the_colour_of_the_last_blink_counts() {
    let mut black = started(&image());
    assert_eq!(black.receive(&[], &mut [FILL; ROOM]).number(), 4);
    let green = told(started(&image()), &[&[0x24]]);
    assert_ne!(ticked(black, 600), ticked(green, 600));
}

#[test]
fn every_register_counts_and_the_password() {
    let switch = started(&image());
    for place in 0..256 {
        let mut image = image();
        image[place] ^= 1;
        assert_ne!(started(&image), switch, "{place:02X}");
    }
}

#[test]
fn an_event_that_does_something_is_seen() {
    let switch = started(&image());
    let after = |event: fn(&mut Switch, &mut [u8]) -> Answer| {
        let mut after = switch.clone();
        event(&mut after, &mut [FILL; ROOM]).done().unwrap();
        after
    };
    assert_eq!(switch.clone(), switch);
    assert_eq!(after(|switch, out| switch.release(0, out)), switch);
    assert_ne!(after(|switch, out| switch.tick(out)), switch);
    assert_ne!(after(|switch, out| switch.restart(out)), switch);
    let pressed = [
        after(|switch, out| switch.press(0, out)),
        after(|switch, out| switch.press(1, out)),
        after(|switch, out| switch.press(2, out)),
        after(|switch, out| switch.press(3, out)),
    ];
    for (contact, one) in pressed.iter().enumerate() {
        assert_ne!(*one, switch);
        for other in &pressed[contact + 1..] {
            assert_ne!(one, other);
        }
    }
}
