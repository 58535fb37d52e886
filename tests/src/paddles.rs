//! Paddle play around every boundary in time, on one paddle or on both.

use crate::belief::Mode;
use crate::packets;
use crate::play::Play;
use crate::random::Random;

const PRESSES: [u32; 6] = [59, 60, 61, 179, 180, 181];
const GAPS: [u32; 5] = [59, 60, 179, 180, 181];

/// A run of taps that closes, of any count.
pub fn taps(play: &mut Play) {
    let count = play.random.weighted(&[
        (20, 1),
        (18, 2),
        (5, 3),
        (2, 4),
        (10, 5),
        (1, 6),
        (1, 9),
        (5, 10),
        (2, 11),
        (2, 12),
        (1, 13),
        (1, 15),
        (1, 17),
    ]);
    let paddle = play.random.below(2) as u8;
    run(play, paddle, count);
    close(play);
}

/// One or two taps: what acts in Normal.
pub fn act(play: &mut Play) {
    let paddle = play.random.below(2) as u8;
    let count = play.random.between(1, 2);
    run(play, paddle, count);
    close(play);
}

/// Presses and gaps at their boundaries.
pub fn boundaries(play: &mut Play) {
    let contact = play.random.below(4) as u8;
    for _ in 0..play.random.between(2, 5) {
        let down = play.random.pick(&PRESSES);
        press_for(play, contact, down);
        let gap = play.random.pick(&GAPS);
        play.lull(gap);
    }
}

/// A press that is long enough for Hold, or just not.
pub fn hold(play: &mut Play) {
    let contact = play.random.below(4) as u8;
    if play.random.chance(30) {
        run(play, contact % 2, 1);
        let gap = join_gap(&mut play.random);
        play.lull(gap);
    }
    let down = match play.random.below(6) {
        0 => 179,
        1 | 2 => 180,
        3 => 181,
        _ => play.random.between(182, 700),
    };
    press_for(play, contact, down);
    let after = play.random.pick(&[1, 30, 180, 200]);
    play.lull(after);
}

/// A press so long that narrow counters would come round.
pub fn long_hold(play: &mut Play) {
    play.settle();
    let contact = play.random.below(4) as u8;
    let down = play.random.pick(&[256, 256, 65_536]) + play.random.pick(&[30, 60, 100, 179]);
    press_for(play, contact, down);
    close(play);
}

/// Presses too short inside a gap, and perhaps one that joins the run past its end.
pub fn late(play: &mut Play) {
    let contact = play.random.below(4) as u8;
    let taps = play.random.pick(&[1, 1, 2, 4]);
    run(play, contact % 2, taps);
    let gap = play.random.pick(&[100, 121, 150, 178, 179]);
    play.wait(gap);
    for _ in 0..play.random.pick(&[1, 1, 1, 2, 6]) {
        let short = play.random.pick(&[1, 2, 30, 58, 59]);
        press_for(play, contact, short);
    }
    let rest = play.random.pick(&[0, 0, 0, 1, 2, 180]);
    play.wait(rest);
    let again = play.random.pick(&[59, 60, 60, 61, 179, 180]);
    press_for(play, contact, again);
    close(play);
}

/// Both paddles at once, their runs closing in the same tick.
pub fn together(play: &mut Play) {
    play.settle();
    let (top, bottom) = match play.belief.mode {
        Mode::Normal => play.random.weighted(&[
            (5, (5, 10)),
            (6, (1, 1)),
            (4, (2, 2)),
            (3, (1, 2)),
            (2, (5, 2)),
            (2, (5, 1)),
            (1, (2, 5)),
            (1, (10, 5)),
            (1, (5, 5)),
        ]),
        Mode::Setup => {
            play.random
                .pick(&[(2, 5), (2, 2), (2, 1), (2, 10), (10, 2), (10, 1), (1, 2)])
        }
        Mode::Factory => play
            .random
            .pick(&[(2, 5), (2, 2), (2, 1), (1, 2), (1, 1), (5, 1)]),
    };
    both(play, top, bottom);
}

/// Runs of `top` and `bottom` taps whose last releases fall together.
pub fn both(play: &mut Play, top: u32, bottom: u32) {
    let common = top.min(bottom);
    if top != bottom {
        run(play, u8::from(bottom > top), top.max(bottom) - common);
        let gap = short_gap(&mut play.random);
        play.wait(gap);
    }
    for number in 1..=common {
        let first = play.random.below(2) as u8;
        let down = play.random.weighted(&[(4, 60), (2, 61), (1, 90), (1, 118)]);
        play.press(first);
        let late = play.random.pick(&[0, 0, 1, 60]);
        play.wait(late);
        play.press(1 - first);
        play.wait(down);
        play.release(first);
        play.release(1 - first);
        if number < common {
            let gap = short_gap(&mut play.random);
            play.wait(gap);
        }
    }
    close(play);
}

/// Both paddles held, so that both Holds may come in one tick.
pub fn both_held(play: &mut Play) {
    play.settle();
    let slave = 2 * play.random.below(2) as u8;
    play.press(slave);
    let between = play.random.pick(&[0, 0, 0, 1, 60]);
    play.wait(between);
    play.press(1);
    let down = play.random.pick(&[179, 180, 181, 240]);
    play.lull(down);
    play.release(slave);
    let apart = play.random.pick(&[0, 1, 30]);
    play.wait(apart);
    play.release(1);
    close(play);
}

/// Local and slave contact of one paddle overlapping in one press.
pub fn overlap(play: &mut Play) {
    let paddle = play.random.below(2) as u8;
    let first = paddle + 2 * play.random.below(2) as u8;
    let second = (first + 2) % 4;
    let total = play.random.pick(&PRESSES);
    let one = play.random.between(0, total);
    let two = play.random.between(0, total - one);
    play.press(first);
    play.lull(one);
    play.press(second);
    play.lull(two);
    let sooner = play.random.pick(&[first, second]);
    play.release(sooner);
    play.lull(total - one - two);
    play.release((sooner + 2) % 4);
    let gap = play.random.pick(&GAPS);
    play.lull(gap);
}

/// Contacts that are not there, and edges that are already so.
pub fn odd_edges(play: &mut Play) {
    for _ in 0..play.random.between(1, 4) {
        let stranger = play.random.pick(&[4, 5, 6, 7, 127, 128, 255]);
        match play.random.below(4) {
            0 => play.press(stranger),
            1 => play.release(stranger),
            _ => repeat_edge(play),
        }
        let gap = play.random.pick(&[0, 1, 59]);
        play.wait(gap);
    }
}

/// Edges and short waits without any plan.
pub fn scramble(play: &mut Play) {
    for _ in 0..play.random.between(6, 24) {
        let contact = play.random.below(4) as u8;
        if play.random.chance(50) {
            play.press(contact);
        } else {
            play.release(contact);
        }
        let gap = play
            .random
            .pick(&[0, 0, 1, 5, 30, 59, 60, 61, 119, 120, 179, 180, 181]);
        play.lull(gap);
    }
    if play.random.chance(70) {
        play.settle();
    }
}

/// Taps on one paddle of which the next begins before the gap is out.
pub fn run(play: &mut Play, paddle: u8, count: u32) {
    let usual = paddle + if play.random.chance(30) { 2 } else { 0 };
    for number in 1..=count {
        let contact = if play.random.chance(10) {
            (usual + 2) % 4
        } else {
            usual
        };
        let down = tap_length(&mut play.random);
        press_for(play, contact, down);
        if number < count {
            let gap = if count > 3 {
                short_gap(&mut play.random)
            } else {
                join_gap(&mut play.random)
            };
            play.lull(gap);
        }
    }
}

/// Waits until an open run has closed, now and then stopping a tick before.
pub fn close(play: &mut Play) {
    match play.random.below(8) {
        0 => {
            play.wait(179);
            packets::level(play);
            play.wait(1);
        }
        1 => play.wait(181),
        2 | 3 => {
            let gap = play.random.between(182, 330);
            play.lull(gap);
        }
        _ => play.wait(180),
    }
}

fn press_for(play: &mut Play, contact: u8, ticks: u32) {
    play.press(contact);
    play.lull(ticks);
    play.release(contact);
}

fn repeat_edge(play: &mut Play) {
    let contact = play.random.below(4) as u8;
    if play.belief.is_down(contact) {
        play.press(contact);
    } else {
        play.release(contact);
    }
}

fn tap_length(random: &mut Random) -> u32 {
    match random.below(12) {
        0..=5 => 60,
        6 | 7 => 61,
        8 => 179,
        9 => random.between(60, 179),
        _ => random.between(60, 90),
    }
}

fn short_gap(random: &mut Random) -> u32 {
    match random.below(16) {
        0 => 0,
        1 => 59,
        2 => 60,
        3 => 179,
        _ => random.between(1, 25),
    }
}

/// A gap after which a press still joins the run.
fn join_gap(random: &mut Random) -> u32 {
    match random.below(8) {
        0 => 0,
        1 => 59,
        2 => 60,
        3 | 4 => 179,
        _ => random.between(1, 120),
    }
}
