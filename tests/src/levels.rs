//! Fades, blinks, the Last On Level, the saved level and the lamp: play in which time passes.

use crate::packets::{self, BLINK, DEACTIVATE, FADE_START, FADE_STOP, GOTO, REPORT, STORE};
use crate::play::Play;

/// Ticks per step for rates 0 to 15.
pub const TICKS: [u32; 16] = [
    1, 1, 2, 4, 6, 8, 12, 24, 36, 72, 144, 360, 720, 1080, 2160, 4320,
];

/// A setting, some of its fade, and what may follow.
pub fn fade(play: &mut Play) {
    let rate = play
        .random
        .weighted(&[(2, 1), (3, 2), (3, 3), (3, 4), (2, 5), (1, 6), (1, 7)]);
    let level = play.random.pick(&[0, 1, 50, 99, 100, 101, 255, 33, 66]);
    let command = play.random.pick(&[GOTO, FADE_START]);
    tell(play, &[command, level, rate]);
    let step = TICKS[usize::from(rate)];
    let steps = play.random.pick(&[1, 2, 3, 20, 37, 50, 100]);
    let ticks = (step * steps + play.random.below(3)).saturating_sub(1);
    play.lull(ticks.min(900));
    after_fade(play);
}

/// A fade stopped at some step, odd ones too, which the Last On Level then brings back.
pub fn last_on(play: &mut Play) {
    let from = play.random.pick(&[0, 0, 100, 30]);
    tell(play, &[GOTO, from, 0]);
    let to = if from == 0 { 100 } else { 0 };
    tell(play, &[FADE_START, to, 1]);
    let ticks = play.random.pick(&[1, 1, 2, 3, 59, 101, 199, 200]);
    play.wait(ticks);
    // A fade that is replaced leaves the Last On Level alone.
    if play.random.chance(70) {
        tell(play, &[FADE_STOP]);
    }
    tell(play, &[GOTO, 0, 0]);
    let again = play.random.pick(&[101, 255, 200]);
    tell(play, &[GOTO, again, 0]);
}

/// A blink with ticks around its flips.
pub fn blink(play: &mut Play) {
    if play.random.chance(40) {
        let level = play.random.byte_between(1, 99);
        tell(play, &[GOTO, level, 0]);
    }
    let value = play.random.pick(&[0, 1, 2, 5, 29, 30, 31, 60, 255]);
    let message = if play.random.chance(20) {
        vec![BLINK]
    } else {
        vec![BLINK, value]
    };
    tell(play, &message);
    let period = 4 * u32::from(if value == 0 { 30 } else { value });
    for _ in 0..play.random.between(1, 3) {
        let ticks = play
            .random
            .pick(&[period - 1, period, period + 1, 2 * period, 1]);
        play.lull(ticks.min(1300));
    }
    after_fade(play);
    if play.random.chance(40) {
        tell(play, &[GOTO, 255]);
    }
}

/// The registers just before and at a multiple of 480 ticks.
pub fn save(play: &mut Play) {
    let left = 480 - play.belief.since % 480;
    let early = play.random.between(1, 60).min(left - 1);
    play.lull(left - 1 - early);
    packets::level(play);
    play.wait(early);
    play.dump();
    play.wait(1);
    play.dump();
    if play.random.chance(40) {
        play.restart();
    }
}

/// Store Preset while something moves, and the component used afterwards.
pub fn preset(play: &mut Play) {
    let links = play.belief.links();
    if links.is_empty() {
        return packets::sloppy(play);
    }
    fade(play);
    packets::linked(play, &[STORE]);
    packets::linked(play, &[DEACTIVATE]);
    let ticks = play.random.between(1, 200);
    play.lull(ticks);
    packets::linked(play, &[packets::ACTIVATE]);
}

/// A packet and ticks around the end of the lamp's blink.
pub fn lamp(play: &mut Play) {
    for _ in 0..play.random.between(1, 3) {
        match play.random.below(4) {
            0 => packets::direct(play, &[REPORT]),
            1 => packets::damaged(play),
            2 => packets::sloppy(play),
            _ => packets::level(play),
        }
        let ticks = play.random.pick(&[0, 1, 28, 29, 30, 31]);
        play.wait(ticks);
    }
}

/// A blink of the lamp that begins under the version blinks and outlives them.
pub fn hidden_lamp(play: &mut Play) {
    play.settle();
    play.restart();
    let ticks = play.random.between(440, 479);
    play.wait(ticks);
    match play.random.below(3) {
        0 => packets::direct(play, &[REPORT]),
        1 => packets::damaged(play),
        _ => packets::level(play),
    }
    play.wait(45);
}

/// Ticks and nothing else.
pub fn idle(play: &mut Play) {
    let unit = play.random.pick(&[30, 60, 120, 180, 480]);
    let count = play.random.between(1, 3);
    let ticks = match play.random.below(10) {
        0 => play.random.between(1000, 5000),
        1..=3 => play.random.between(1, 40),
        _ => unit * count + play.random.below(3) - 1,
    };
    play.wait(ticks);
}

/// A few thousand ticks for slow rates.
pub fn long_idle(play: &mut Play) {
    let rate = play.random.byte() % 16;
    tell(play, &[GOTO, 255, 0]);
    tell(play, &[GOTO, 20, rate]);
    let most = if play.random.chance(10) {
        20_000
    } else {
        8_000
    };
    let ticks = play.random.between(2_000, most);
    play.wait(ticks);
}

/// The slowest fade over its whole way.
pub fn slowest(play: &mut Play) {
    play.settle();
    tell(play, &[GOTO, 0, 0]);
    tell(play, &[GOTO, 100, 15]);
    let short = play.random.below(2);
    play.wait(864_000 - short);
    packets::direct(play, &[REPORT]);
    play.wait(2 + short);
}

/// Events with a lent buffer of another size.
pub fn other_room(play: &mut Play) {
    let room = play.random.pick(&[0, 1, 24, 47, 47, 48, 49, 96, 4096]);
    play.room(room);
    for _ in 0..play.random.between(2, 7) {
        let contact = play.random.below(6) as u8;
        match play.random.below(8) {
            0 => play.press(contact),
            1 => play.release(contact),
            2 => packets::level(play),
            3 => packets::damaged(play),
            4 => packets::direct(play, &[REPORT]),
            5 => play.restart(),
            6 => packets::sloppy(play),
            _ => {
                let ticks = play.random.between(1, 200);
                play.wait(ticks);
            }
        }
    }
    if room < 48 || play.random.chance(50) {
        play.room(48);
    }
}

/// A level message to the switch, by link or direct.
fn tell(play: &mut Play, message: &[u8]) {
    let matched = !play.belief.links().is_empty();
    if matched && play.random.chance(40) {
        packets::linked(play, message);
    } else {
        packets::direct(play, message);
    }
}

fn after_fade(play: &mut Play) {
    match play.random.below(8) {
        0 | 1 => tell(play, &[FADE_STOP]),
        2 => packets::direct(play, &[REPORT]),
        3 => packets::level(play),
        4 => tell(play, &[GOTO, 255]),
        _ => {}
    }
}
