//! Checks that the plans and scripts hold what they are made for: the first three hundred much, and all that the gate plays what
//! the errands are for.

mod watch;

use std::collections::BTreeSet;
use std::sync::OnceLock;
use trials::generate::{plan, script, Event, Plan};
use trials::GATE_SCRIPTS;
use watch::{watch, Meter, Seen};

const SEEDS: u64 = 300;

/// An errand is run at least so often, as long as there are not more than twenty.
const TURNS: u32 = (GATE_SCRIPTS / 20) as u32;

/// The commands, and the number of the answer that each gets from source 0.
const FROM_NOBODY: [(u8, u8); 12] = [
    (0x03, 0),
    (0x04, 0),
    (0x10, 13),
    (0x11, 0),
    (0x20, 0),
    (0x21, 0),
    (0x22, 0),
    (0x23, 0),
    (0x24, 0),
    (0x25, 0),
    (0x30, 13),
    (0x31, 0),
];

/// What the gate's plans reach.
fn seen() -> &'static Seen {
    static SEEN: OnceLock<Seen> = OnceLock::new();
    SEEN.get_or_init(|| {
        let mut seen = Seen::default();
        (0..GATE_SCRIPTS).for_each(|seed| watch(&plan(seed), &mut seen));
        seen
    })
}

fn plans() -> impl Iterator<Item = Plan> {
    (0..SEEDS).map(plan)
}

fn sum(bytes: &[u8]) -> u8 {
    bytes
        .iter()
        .fold(0, |sum: u8, &byte| sum.wrapping_add(byte))
}

/// Plays the plan on a meter for each paddle.
fn measure(plan: &Plan, meters: &mut [Meter; 2]) {
    let mut heard = true;
    meters.iter_mut().for_each(Meter::restart);
    for event in &plan.events {
        match *event {
            Event::Room(bytes) => heard = bytes >= 48,
            _ if !heard => {}
            Event::Press(contact) | Event::Release(contact) => {
                let down = matches!(event, Event::Press(_));
                if contact < 4 {
                    meters[usize::from(contact % 2)].edge(usize::from(contact / 2), down);
                }
            }
            Event::Ticks(count) => {
                for _ in 0..count {
                    for meter in &mut *meters {
                        meter.tick();
                    }
                }
            }
            Event::Restart => meters.iter_mut().for_each(Meter::restart),
            Event::Packet(_) | Event::Dump => {}
        }
    }
}

#[test]
fn a_seed_gives_one_script() {
    for seed in [0, 1, 77, u64::MAX] {
        assert_eq!(plan(seed), plan(seed));
        assert_eq!(script(seed), script(seed));
    }
    assert_ne!(script(1), script(2));
}

#[test]
fn both_paddles_meet_every_boundary() {
    let mut meters = [Meter::default(), Meter::default()];
    plans().for_each(|plan| measure(&plan, &mut meters));
    for meter in meters {
        for ticks in [59, 60, 61, 179, 180, 181] {
            assert!(meter.presses.contains(&ticks), "press of {ticks}");
        }
        for ticks in [0, 1, 59, 60, 179, 180, 181] {
            assert!(meter.gaps.contains(&ticks), "gap of {ticks}");
        }
        for taps in [1, 2, 3, 5, 10, 11, 12, 13, 17] {
            assert!(meter.runs.contains(&taps), "run of {taps}");
        }
    }
}

#[test]
fn plans_keep_to_their_size() {
    let mut long = 0;
    for plan in plans() {
        assert_eq!(plan.image.len(), 256);
        assert!(
            (50..=400).contains(&plan.events.len()),
            "{} events",
            plan.events.len()
        );
        let ticks: u64 = plan
            .events
            .iter()
            .map(|event| match event {
                Event::Ticks(count) => u64::from(*count),
                _ => 0,
            })
            .sum();
        long += u32::from(ticks > 20_000);
    }
    assert!(long < 30, "{long} scripts of more than 20,000 ticks");
}

#[test]
fn buffers_and_contacts_of_all_sizes() {
    let (mut rooms, mut contacts) = (BTreeSet::new(), BTreeSet::new());
    for event in plans().flat_map(|plan| plan.events) {
        match event {
            Event::Room(bytes) => drop(rooms.insert(bytes)),
            Event::Press(contact) | Event::Release(contact) => drop(contacts.insert(contact)),
            _ => {}
        }
    }
    assert!([0, 1, 47, 48, 49, 4096]
        .iter()
        .all(|room| rooms.contains(room)));
    assert!([0, 1, 2, 3, 4, 255]
        .iter()
        .all(|contact| contacts.contains(contact)));
}

#[test]
fn every_command_comes_sound_by_link_and_direct() {
    let mut seen = BTreeSet::new();
    let (mut sound, mut all, mut longest, mut empty) = (0, 0, 0, 0);
    for event in plans().flat_map(|plan| plan.events) {
        let Event::Packet(bytes) = event else {
            continue;
        };
        all += 1;
        longest = longest.max(bytes.len());
        empty += u32::from(bytes.is_empty());
        let fits = (7..=24).contains(&bytes.len()) && usize::from(bytes[0] & 0x1F) == bytes.len();
        if fits && sum(&bytes) == 0 && bytes[1] < 128 {
            sound += 1;
            seen.insert((bytes[5], bytes[0] >= 128));
        }
    }
    let commands = [
        0x03, 0x04, 0x10, 0x11, 0x20, 0x21, 0x22, 0x23, 0x24, 0x25, 0x30, 0x31, 0x86, 0x90,
    ];
    for command in commands {
        assert!(seen.contains(&(command, false)), "{command:02x} direct");
        assert!(seen.contains(&(command, true)), "{command:02x} by link");
    }
    assert!(sound * 10 > all * 8, "{sound} sound packets of {all}");
    assert!(longest == 256 && empty > 0);
}

#[test]
fn scripts_hold_the_oddities_of_a_text() {
    let scripts: Vec<Vec<u8>> = (0..SEEDS).map(script).collect();
    let lines = || {
        scripts
            .iter()
            .flat_map(|script| script.split(|&byte| byte == b'\n'))
    };
    assert!(lines().any(|line| line.ends_with(b"\r")));
    assert!(lines().any(|line| line.starts_with(b"#") && line.len() == 2048));
    assert!(lines().any(|line| line.starts_with(b"#") && line.len() == 2049));
    assert!(lines().any(|line| line == b"p 256"));
    assert!(lines().any(|line| line.starts_with(b"k ") && line.len() == 2 + 2 * 257));
    assert!(scripts.iter().any(|script| !script.starts_with(b"i ")));
    assert!(scripts.iter().any(|script| !script.ends_with(b"\n")));
    let starts = |script: &[u8]| {
        script
            .split(|&byte| byte == b'\n')
            .filter(|line| line.starts_with(b"i "))
            .count()
    };
    assert!(scripts.iter().any(|script| starts(script) > 1));
}

#[test]
fn every_pair_of_runs_closes_in_one_tick() {
    for mode in 0..3 {
        for (top, bottom) in [1, 2, 5, 10]
            .map(|top| [1, 2, 5, 10].map(|bottom| (top, bottom)))
            .concat()
        {
            let pair = (mode, top, bottom);
            assert!(
                seen().pairs.contains(&pair),
                "{top} and {bottom} taps in mode {mode}"
            );
        }
    }
}

#[test]
fn runs_of_every_length() {
    for mode in 0..3 {
        for taps in 1..=13 {
            assert!(
                seen().runs.contains(&(mode, taps)),
                "{taps} taps in mode {mode}"
            );
        }
    }
}

#[test]
fn gestures_move_the_level_in_ticks_that_save() {
    let times = seen().moved_saves;
    assert!(times >= TURNS, "{times} times");
}

#[test]
fn dimmer_options_change_during_fades() {
    let times = seen().changed_fades;
    assert!(times >= TURNS, "{times} times");
}

#[test]
fn slow_fades_come_to_their_end() {
    assert_eq!(seen().slow_ends, (10..=14).collect());
}

#[test]
fn every_range_around_the_password_is_read() {
    for mode in 0..3 {
        for first in 0..4 {
            for count in 1..=16 {
                let get = (mode, first, count);
                assert!(
                    seen().gets.contains(&get),
                    "{count} registers from {first} in mode {mode}"
                );
            }
        }
    }
}

#[test]
fn every_command_comes_from_source_0() {
    for command in FROM_NOBODY {
        let times = seen().from_nobody.get(&command).copied().unwrap_or(0);
        assert!(
            times >= TURNS,
            "command and number {command:02x?}: {times} times"
        );
    }
}

#[test]
fn levels_set_when_not_capable_are_asked_for_when_capable() {
    let times = seen().last_while_not_capable;
    assert!(times >= TURNS, "{times} times");
}
