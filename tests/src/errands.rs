//! What the scripts have to reach, by design and not by luck: each plan runs one errand, and the seeds take them in turn.

use crate::belief::Mode;
use crate::levels::TICKS;
use crate::packets::{
    self, ACTIVATE, BLINK, DEACTIVATE, FADE_START, FADE_STOP, GET, GOTO, REPORT, SET, START, STOP,
    STORE,
};
use crate::play::Play;

/// Told how often its turn has come before.
type Errand = fn(&mut Play, usize);

const ERRANDS: &[Errand] = &[
    pair_in_normal,
    pair_in_setup,
    pair_in_factory,
    gesture_at_a_save,
    options_during_a_fade,
    slow_fade,
    around_the_password,
    from_nobody,
    run_of_any_length,
    last_while_not_capable,
    stops_that_remember_nothing,
    release_while_not_capable,
    hold_after_taps,
    link_of_a_sender,
];

const MODES: [Mode; 3] = [Mode::Normal, Mode::Setup, Mode::Factory];

/// The tap counts that do something in some mode.
const COUNTS: [u32; 4] = [1, 2, 5, 10];

const TOP_SENDER: u8 = 0x70;
const DIMMER_OPTIONS: u8 = 0x8D;
const SAVED_LEVEL: u8 = 0xF9;
const CAPABLE: u8 = 0x10;

/// Runs the errand of a seed.
pub fn run(play: &mut Play, seed: u64) {
    let count = ERRANDS.len() as u64;
    let errand = ERRANDS[(seed % count) as usize];
    errand(play, (seed / count) as usize);
}

fn pair_in_normal(play: &mut Play, turn: usize) {
    pair(play, Mode::Normal, turn);
}

fn pair_in_setup(play: &mut Play, turn: usize) {
    pair(play, Mode::Setup, turn);
}

fn pair_in_factory(play: &mut Play, turn: usize) {
    pair(play, Mode::Factory, turn);
}

/// Runs of taps on both paddles that close in one tick: each pair of counts in sixteen turns.
fn pair(play: &mut Play, mode: Mode, turn: usize) {
    reach(play, mode);
    let taps = [COUNTS[turn % 4], COUNTS[turn / 4 % 4]];
    for left in (1..=taps[0].max(taps[1])).rev() {
        let first = play.random.below(2) as u8;
        let tapped = |paddle: &u8| left <= taps[usize::from(*paddle)];
        let contacts = [first, 1 - first].into_iter().filter(tapped);
        contacts.clone().for_each(|contact| play.press(contact));
        let down = play.random.between(60, 80);
        play.wait(down);
        contacts.for_each(|contact| play.release(contact));
        if left > 1 {
            let gap = play.random.between(1, 25);
            play.wait(gap);
        }
    }
    play.wait(180);
    play.dump();
}

/// A tap or a Hold that moves the level at once, in a tick that saves.
fn gesture_at_a_save(play: &mut Play, turn: usize) {
    let paddle = (turn % 2) as u8;
    let level = play.random.byte_between(10, 40);
    fit(
        play,
        &[&[DIMMER_OPTIONS, CAPABLE], &[0x7A + 4 * paddle, level, 0]],
    );
    packets::direct(play, &[GOTO, 50, 0]);
    let (down, up) = if (turn / 2).is_multiple_of(2) {
        (60, 180)
    } else {
        (180, 0)
    };
    let left = 480 - play.belief.since % 480;
    let wait = if left < down + up { left + 480 } else { left };
    play.wait(wait - down - up);
    play.press(paddle);
    play.wait(down);
    if up > 0 {
        play.release(paddle);
        play.wait(up);
    }
    play.dump();
    play.settle();
}

/// The dimmer options written while a fade runs: another default rate, or not capable.
fn options_during_a_fade(play: &mut Play, turn: usize) {
    let before = play.random.byte_between(3, 5);
    fit(play, &[&[DIMMER_OPTIONS, CAPABLE | before]]);
    reach(play, Mode::Setup);
    let (from, to) = [(0, 60), (60, 0), (100, 30), (20, 70)][turn / 2 % 4];
    packets::direct(play, &[GOTO, from, 0]);
    packets::direct(play, &[GOTO, to]);
    let first = play.random.between(1, 100);
    play.wait(first);
    let after = if turn.is_multiple_of(2) {
        CAPABLE | 1
    } else {
        before
    };
    packets::direct(play, &[SET, DIMMER_OPTIONS, after]);
    play.wait(100 * TICKS[usize::from(before)]);
    packets::direct(play, &[REPORT]);
    packets::direct(play, &[STOP]);
}

/// Two steps up or down at rates 10 to 14, a tick before the end and at it.
fn slow_fade(play: &mut Play, turn: usize) {
    fit(play, &[&[DIMMER_OPTIONS, CAPABLE]]);
    let rate = 10 + (turn % 5) as u8;
    let from = play.random.byte_between(1, 99);
    let to = if (turn / 5).is_multiple_of(2) {
        from + 1
    } else {
        from - 1
    };
    packets::direct(play, &[GOTO, from, 0]);
    packets::direct(play, &[GOTO, to, rate]);
    play.wait(2 * TICKS[usize::from(rate)] - 1);
    packets::direct(play, &[REPORT]);
    play.wait(1);
    packets::direct(play, &[REPORT]);
    play.wait(1);
}

/// Get Registers of every count from one of the places before the password or in it: each mode and place in twelve turns.
fn around_the_password(play: &mut Play, turn: usize) {
    fit(play, &[]);
    reach(play, MODES[turn / 4 % 3]);
    let first = (turn % 4) as u8;
    for count in 1..=16 {
        packets::direct(play, &[GET, first, count]);
    }
}

/// Every command from source 0, well formed and where it would be done.
fn from_nobody(play: &mut Play, _turn: usize) {
    let link = play.random.byte_between(1, 254);
    fit(play, &[&[DIMMER_OPTIONS, CAPABLE], &[0x40, link, 50, 0]]);
    let levels: [&[u8]; 6] = [
        &[REPORT],
        &[GET, 0, 4],
        &[GOTO, 30, 0],
        &[FADE_START, 80, 2],
        &[FADE_STOP],
        &[BLINK, 1],
    ];
    for message in levels {
        packets::from_nobody(play, None, message);
        play.wait(3);
    }
    for command in [ACTIVATE, STORE, DEACTIVATE] {
        packets::from_nobody(play, Some(link), &[command]);
    }
    let [first, second] = play.belief.password();
    packets::from_nobody(play, None, &[START, first, second]);
    packets::from_nobody(play, None, &[SET, DIMMER_OPTIONS, CAPABLE | 3]);
    packets::from_nobody(play, None, &[STOP]);
    packets::from_nobody(play, None, &[START, first, second]);
    packets::to_all_from_nobody(play, &[STOP]);
    play.dump();
}

/// One run of 1 to 13 taps: each mode and count in 39 turns.
fn run_of_any_length(play: &mut Play, turn: usize) {
    reach(play, MODES[turn / 13 % 3]);
    let paddle = play.random.below(2) as u8;
    tap(play, paddle, turn as u32 % 13 + 1);
    play.dump();
}

/// A level set while the load cannot dim, and the Last On Level asked for when it can; and the other way round.
fn last_while_not_capable(play: &mut Play, _turn: usize) {
    let level = play.random.byte_between(1, 99);
    let last = play.random.byte_between(101, 255);
    for options in [0, CAPABLE] {
        fit(play, &[&[DIMMER_OPTIONS, options]]);
        packets::direct(play, &[GOTO, level, 0]);
        fit(play, &[&[DIMMER_OPTIONS, options ^ CAPABLE]]);
        packets::direct(play, &[GOTO, 0, 0]);
        packets::direct(play, &[GOTO, last, 0]);
        packets::direct(play, &[REPORT]);
    }
}

/// Fade Stop at rest, where the level is not the Last On Level, and while a blink is dark.
fn stops_that_remember_nothing(play: &mut Play, _turn: usize) {
    let level = play.random.byte_between(1, 99);
    fit(play, &[&[DIMMER_OPTIONS, CAPABLE], &[SAVED_LEVEL, level]]);
    play.restart();
    packets::direct(play, &[FADE_STOP]);
    packets::direct(play, &[GOTO, 0, 0]);
    packets::direct(play, &[GOTO, 255, 0]);
    packets::direct(play, &[GOTO, level, 0]);
    packets::direct(play, &[BLINK, 2]);
    play.wait(9);
    packets::direct(play, &[FADE_STOP]);
    packets::direct(play, &[GOTO, 255, 0]);
}

/// A Hold let go over a blink, where the load cannot dim.
fn release_while_not_capable(play: &mut Play, turn: usize) {
    let paddle = (turn % 2) as u8;
    fit(play, &[&[DIMMER_OPTIONS, 0]]);
    packets::direct(play, &[BLINK, 5]);
    play.press(paddle);
    play.wait(185);
    play.release(paddle);
    play.wait(45);
}

/// Two taps that a Hold drops: each mode and paddle in six turns.
fn hold_after_taps(play: &mut Play, turn: usize) {
    reach(play, MODES[turn % 3]);
    let paddle = (turn / 3 % 2) as u8;
    for down in [60, 60, 200] {
        play.press(paddle);
        play.wait(down);
        play.release(paddle);
        play.wait(5);
    }
    play.wait(180);
    play.dump();
}

/// A link packet to the link that the top paddle sends to, which no component has.
fn link_of_a_sender(play: &mut Play, _turn: usize) {
    let links = play.belief.links();
    let other = (1..255).rev().find(|link| !links.contains(link));
    let link = other.expect("sixteen components leave a link");
    fit(play, &[&[TOP_SENDER, link]]);
    packets::from_nobody(play, Some(link), &[GOTO, 50, 0]);
    play.dump();
}

/// Writes registers, each a place and its values, and leaves the switch in Normal. One without a unit gets the factory's.
fn fit(play: &mut Play, writes: &[&[u8]]) {
    if play.belief.unit() == 0 {
        reach(play, Mode::Factory);
    }
    reach(play, Mode::Setup);
    for write in writes {
        packets::direct(play, &[&[SET], *write].concat());
    }
    packets::direct(play, &[STOP]);
}

/// Brings the switch into a mode, by taps alone.
fn reach(play: &mut Play, mode: Mode) {
    play.settle();
    let paddle = play.random.below(2) as u8;
    let through = mode == Mode::Factory && play.belief.mode == Mode::Setup;
    if play.belief.mode != mode && play.belief.mode != Mode::Normal && !through {
        tap(play, paddle, 2);
    }
    if play.belief.mode == Mode::Normal && mode != Mode::Normal {
        tap(play, paddle, 5);
    }
    if play.belief.mode != mode {
        tap(play, paddle, 10);
    }
}

/// A run of taps that closes, with nothing else in between.
fn tap(play: &mut Play, paddle: u8, count: u32) {
    for left in (0..count).rev() {
        play.press(paddle);
        play.wait(60);
        play.release(paddle);
        play.wait(if left > 0 { 2 } else { 180 });
    }
}
