//! Visits to Setup and Factory Default, what is done there, and play across a mode change.

use crate::belief::Mode;
use crate::images;
use crate::packets;
use crate::paddles;
use crate::play::Play;

/// Goes to Setup, does things there and mostly leaves.
pub fn setup(play: &mut Play) {
    to_setup(play);
    for _ in 0..play.random.between(2, 9) {
        setup_deed(play);
    }
    leave_setup(play);
}

/// Goes to Factory Default, does things there and mostly leaves.
pub fn factory(play: &mut Play) {
    to_setup(play);
    if play.random.chance(40) {
        setup_deed(play);
        to_setup(play);
    }
    let paddle = play.random.below(2) as u8;
    paddles::run(play, paddle, 10);
    paddles::close(play);
    for _ in 0..play.random.between(2, 7) {
        factory_deed(play);
    }
    if play.random.chance(75) {
        leave_factory(play);
        refit(play);
    }
}

/// A Hold begun in one mode and let go in another, or over a restart.
pub fn hold_across(play: &mut Play) {
    if play.random.chance(50) {
        to_setup(play);
    } else {
        to_normal(play);
    }
    let contact = play.random.below(4) as u8;
    play.press(contact);
    let down = play.random.pick(&[100, 179, 180, 181, 240]);
    play.wait(down);
    change_mode(play, 1 - contact % 2);
    let rest = play.random.pick(&[0, 1, 60, 120, 180]);
    play.lull(rest);
    play.release(contact);
    let after = play.random.pick(&[1, 60, 180]);
    play.wait(after);
}

/// Restarts, often in the midst of something, and looks at the blinks after it.
pub fn restart(play: &mut Play) {
    if play.random.chance(30) {
        let contact = play.random.below(4) as u8;
        play.press(contact);
        let down = play.random.pick(&[1, 60, 179, 180, 200]);
        play.wait(down);
    }
    play.restart();
    for _ in 0..play.random.below(4) {
        let ticks = play
            .random
            .pick(&[1, 59, 60, 61, 119, 120, 239, 240, 479, 480, 481]);
        play.lull(ticks);
    }
}

/// The version digit rewritten while it is shown.
pub fn version(play: &mut Play) {
    play.settle();
    play.restart();
    let under = play.random.pick(&[0, 30, 60, 119]);
    play.wait(under);
    packets::start_setup(play);
    for _ in 0..play.random.between(1, 3) {
        let digit = play.random.byte();
        packets::direct(play, &[packets::SET, 0x0B, digit]);
        let ticks = play.random.pick(&[1, 60, 61, 120]);
        play.wait(ticks);
    }
    leave_setup(play);
}

/// Five taps on the top and ten on the bottom from Normal, closing together.
pub fn straight_to_factory(play: &mut Play) {
    to_normal(play);
    paddles::both(play, 5, 10);
    for _ in 0..play.random.between(1, 3) {
        factory_deed(play);
    }
}

fn to_normal(play: &mut Play) {
    play.settle();
    match play.belief.mode {
        Mode::Normal => {}
        Mode::Setup if play.random.chance(50) => packets::direct(play, &[packets::STOP]),
        _ => {
            let paddle = play.random.below(2) as u8;
            paddles::run(play, paddle, 2);
            paddles::close(play);
        }
    }
}

fn to_setup(play: &mut Play) {
    play.settle();
    if play.belief.mode == Mode::Factory {
        to_normal(play);
    }
    if play.belief.mode == Mode::Normal && play.random.chance(50) {
        packets::start_setup(play);
    }
    if play.belief.mode == Mode::Normal {
        let paddle = play.random.below(2) as u8;
        paddles::run(play, paddle, 5);
        paddles::close(play);
    }
}

/// Leaves Setup in one of the ways there are, or stays.
fn leave_setup(play: &mut Play) {
    match play.random.below(8) {
        0 | 1 => {}
        2 => play.restart(),
        3..=5 => packets::direct(play, &[packets::STOP]),
        _ => to_normal(play),
    }
    let after = play.random.pick(&[0, 1, 59, 60, 119, 120, 121]);
    play.lull(after);
}

/// Leaves Factory Default, at times through Normal into Setup within one tick.
fn leave_factory(play: &mut Play) {
    play.settle();
    match play.random.below(6) {
        0 => play.restart(),
        1 | 2 if play.belief.mode == Mode::Factory => paddles::both(play, 2, 5),
        _ => to_normal(play),
    }
}

fn setup_deed(play: &mut Play) {
    match play.random.below(20) {
        0..=6 => packets::set(play),
        7..=9 => packets::get(play),
        10 => write_identity(play),
        11 => {
            packets::set(play);
            play.dump();
        }
        12 => packets::start_setup(play),
        13 | 14 => packets::sloppy(play),
        15 | 16 => packets::level(play),
        17 => paddles::hold(play),
        18 => idle_taps(play),
        _ => {
            let ticks = play.random.pick(&[1, 59, 60, 61, 119, 120, 121]);
            play.lull(ticks);
        }
    }
}

fn factory_deed(play: &mut Play) {
    let paddle = play.random.below(2) as u8;
    match play.random.below(12) {
        0 | 1 => packets::get(play),
        2 => packets::level(play),
        3 => paddles::hold(play),
        4 => play.dump(),
        5 => {
            paddles::run(play, paddle, 5);
            paddles::close(play);
        }
        6 => packets::start_setup(play),
        7 => packets::set(play),
        8 => packets::direct(play, &[packets::STOP]),
        9 => packets::sloppy(play),
        10 => {
            let ticks = play.random.pick(&[1, 59, 60, 61, 120]);
            play.lull(ticks);
        }
        _ => {
            paddles::run(play, paddle, 1);
            paddles::close(play);
        }
    }
}

/// Taps that do nothing in Setup.
fn idle_taps(play: &mut Play) {
    let paddle = play.random.below(2) as u8;
    let count = play.random.pick(&[1, 1, 3, 5, 11]);
    paddles::run(play, paddle, count);
    paddles::close(play);
}

/// Writes network, unit and password, or the counters.
fn write_identity(play: &mut Play) {
    let network = play.random.pick(&[1, 1, 0, 255, 40]);
    let unit = play.random.pick(&[5, 5, 5, 0, 250]);
    let [first, second] = [play.random.byte(), play.random.byte()];
    let message = match play.random.below(7) {
        0 => vec![packets::SET, 0, network, unit, first, second],
        1 => vec![packets::SET, 1, unit, first],
        2 => vec![packets::SET, 2, first, second],
        3 => vec![packets::SET, 3, second],
        4 => vec![packets::SET, 0xF9, first, 254, second, 254],
        5 => vec![
            packets::SET,
            0xF9,
            play.random.pick(&[0, 50, 100, 101, 255]),
        ],
        _ => vec![packets::SET, 0, network],
    };
    packets::direct(play, &message);
}

/// Writes the tables anew, which Factory Default has emptied.
fn refit(play: &mut Play) {
    to_setup(play);
    let image = images::sensible(&mut play.random);
    for first in (0x40..0xC0).step_by(16) {
        let mut message = vec![packets::SET, first as u8];
        message.extend(&image[first..first + 16]);
        packets::direct(play, &message);
    }
    to_normal(play);
}

/// Changes the mode while the other paddle may be down.
fn change_mode(play: &mut Play, paddle: u8) {
    let taps = play.random.chance(40);
    match play.belief.mode {
        _ if play.random.chance(15) => play.restart(),
        Mode::Normal if !taps => packets::start_setup(play),
        Mode::Setup if !taps => packets::direct(play, &[packets::STOP]),
        mode => {
            let count = match mode {
                Mode::Normal => 5,
                Mode::Setup => play.random.pick(&[2, 2, 10]),
                Mode::Factory => 2,
            };
            paddles::run(play, paddle, count);
            paddles::close(play);
        }
    }
}
