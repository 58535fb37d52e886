//! Colours and modes, the numbers of document 01 that stand for them, and what an answer shows.

mod common;

use common::{direct, image, started, ticked, told, FILL};
use melszondru::{Colour, Mode, NoSuchNumber, Switch, ROOM};

#[test]
fn a_colour_is_0_to_3() {
    let colours = [Colour::Black, Colour::Red, Colour::Green, Colour::Orange];
    for number in 0..=255u8 {
        let expected = colours.get(usize::from(number)).copied();
        assert_eq!(
            Colour::try_from(number),
            expected.ok_or(NoSuchNumber(number))
        );
    }
    assert_eq!(colours.map(u8::from), [0, 1, 2, 3]);
}

#[test]
fn a_mode_is_0_to_2() {
    let modes = [Mode::Normal, Mode::Setup, Mode::Factory];
    for number in 0..=255u8 {
        let expected = modes.get(usize::from(number)).copied();
        assert_eq!(Mode::try_from(number), expected.ok_or(NoSuchNumber(number)));
    }
    assert_eq!(modes.map(u8::from), [0, 1, 2]);
}

/// Past the version blinks, with a level above 0: bits 3 and 2 of register 0x8B.
#[test]
fn an_answer_has_the_lamps_colour() {
    for (bits, colour) in [
        (0x00, Colour::Black),
        (0x04, Colour::Red),
        (0x08, Colour::Green),
        (0x0C, Colour::Orange),
    ] {
        let mut image = image();
        image[0x8B] = bits;
        let mut switch = ticked(started(&image), 480);
        assert_eq!(switch.tick(&mut [FILL; ROOM]).colour(), colour);
    }
}

#[test]
fn an_answer_has_the_mode() {
    let mut switch = started(&image());
    let mut out = [FILL; ROOM];
    assert_eq!(switch.tick(&mut out).mode(), Mode::Normal);
    let mut switch = told(switch, &[&[0x03, 0x12, 0x34]]);
    assert_eq!(switch.tick(&mut out).mode(), Mode::Setup);
    assert_eq!(tapped(&mut switch, 10), Mode::Factory);
    assert_eq!(tapped(&mut switch, 2), Mode::Normal);
    let answer = switch.receive(&direct(&[0x30]), &mut out);
    // The factory values have another network.
    assert_eq!((answer.number(), answer.mode()), (9, Mode::Normal));
}

/// During the flash after a change of mode, and after it.
#[test]
fn an_answer_has_the_level_and_the_output() {
    let mut switch = told(started(&image()), &[&[0x03, 0x12, 0x34]]);
    let answer = switch.tick(&mut [FILL; ROOM]);
    assert_eq!((answer.level(), answer.output()), (80, 0));
    assert_eq!(
        format!("{answer:?}"),
        "Answer { number: 0, count: 0, lengths: [0, 0], level: 80, output: 0, colour: Red, mode: Setup }"
    );
    let answer = ticked(switch, 120).tick(&mut [FILL; ROOM]);
    assert_eq!((answer.level(), answer.output()), (80, 80));
}

/// The mode after so many taps of the top paddle.
fn tapped(switch: &mut Switch, taps: usize) -> Mode {
    let mut out = [FILL; ROOM];
    for _ in 0..taps {
        switch.press(0, &out);
        for _ in 0..60 {
            switch.tick(&mut out);
        }
        switch.release(0, &mut out);
    }
    for _ in 0..180 {
        switch.tick(&mut out);
    }
    switch.tick(&mut out).mode()
}
