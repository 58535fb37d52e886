//! The worked examples (a) to (j) of the rules, and a few points around them.

use reference::{Answer, Colour, Mode, Switch};

/// Network 1, unit 5, step 80, dimming capable with default rate 0, password
/// 12 34, link 3 in the first receive component.
fn image() -> [u8; 256] {
    let mut image = [255; 256];
    image[0x00..0x04].copy_from_slice(&[1, 5, 0x12, 0x34]);
    image[0x40..0x43].copy_from_slice(&[3, 70, 0]);
    image[0x7A..0x82].copy_from_slice(&[10, 0, 20, 0, 30, 0, 35, 0]);
    image[0x8B] = 0x09;
    image[0x8D] = 0x10;
    image[0xF9] = 40;
    image[0xFA] = 0;
    image[0xFC] = 0;
    image
}

struct Bench {
    switch: Switch,
    out: [u8; 48],
}

impl Bench {
    fn new(image: &[u8; 256]) -> Bench {
        Bench {
            switch: Switch::start(image).unwrap().0,
            out: [0xAA; 48],
        }
    }

    fn receive(&mut self, packet: &[u8]) -> Answer {
        self.out = [0xAA; 48];
        self.switch.receive(packet, &mut self.out)
    }

    /// Adds the length and the checksum.
    fn send(&mut self, link: bool, destination: u8, source: u8, message: &[u8]) -> Answer {
        let head = if link { 0x80 } else { 0 } | (message.len() + 6) as u8;
        let mut packet = vec![head, 0, 1, destination, source];
        packet.extend(message);
        let sum = packet.iter().fold(0u8, |sum, &byte| sum.wrapping_add(byte));
        packet.push(sum.wrapping_neg());
        self.receive(&packet)
    }

    fn ticks(&mut self, count: u32) -> Answer {
        assert!(count > 0);
        let mut answer = self.tick();
        for _ in 1..count {
            answer = self.tick();
        }
        answer
    }

    fn tick(&mut self) -> Answer {
        self.out = [0xAA; 48];
        self.switch.tick(&mut self.out)
    }

    fn press(&mut self, contact: u8) -> Answer {
        self.switch.press(contact, &mut self.out)
    }

    fn release(&mut self, contact: u8) -> Answer {
        self.out = [0xAA; 48];
        self.switch.release(contact, &mut self.out)
    }

    fn tap(&mut self, contact: u8, count: u32) {
        for _ in 0..count {
            self.press(contact);
            self.ticks(60);
            self.release(contact);
            self.ticks(10);
        }
    }
}

const STATUS: [u8; 7] = [0x07, 0x00, 0x01, 0x05, 0x09, 0x30, 0xBA];

#[test]
fn a_report_status() {
    let mut bench = Bench::new(&image());
    let answer = bench.receive(&STATUS);
    assert_eq!(
        (answer.number, answer.count, answer.lengths),
        (0, 1, [8, 0])
    );
    assert_eq!(
        bench.out[..8],
        [0x08, 0x00, 0x01, 0x09, 0x05, 0x86, 0x28, 0x3B]
    );
    assert_eq!(bench.out[8..], [0xAA; 40]);
}

#[test]
fn b_goto_by_link_snaps() {
    let mut bench = Bench::new(&image());
    let answer = bench.receive(&[0x89, 0x00, 0x01, 0x03, 0x09, 0x22, 0x32, 0x00, 0x16]);
    assert_eq!(
        (answer.number, answer.count, answer.level, answer.output),
        (0, 0, 100, 100)
    );
}

#[test]
fn c_start_setup() {
    let mut bench = Bench::new(&image());
    let answer = bench.receive(&[0x09, 0x00, 0x01, 0x05, 0x09, 0x03, 0x12, 0x34, 0x9F]);
    assert_eq!(
        (answer.number, answer.mode, answer.output),
        (0, Mode::Setup, 0)
    );
    assert_eq!(bench.switch.image()[0xFA], 1);
    assert_eq!(bench.ticks(119).output, 0);
    assert_eq!(bench.tick().output, 80);
}

#[test]
fn d_any_other_password() {
    let mut bench = Bench::new(&image());
    for password in 0..=0xFFFFu16 {
        let [high, low] = password.to_be_bytes();
        if password != 0x1234 {
            let answer = bench.send(false, 5, 9, &[0x03, high, low]);
            assert_eq!((answer.number, answer.mode), (14, Mode::Normal));
        }
    }
    assert_eq!(bench.switch.image()[0xFA], 0);
}

#[test]
fn e_wrong_sum() {
    let mut bench = Bench::new(&image());
    let mut packet = STATUS;
    packet[6] = 0xBB;
    let answer = bench.receive(&packet);
    assert_eq!((answer.number, answer.count), (7, 0));
    assert_eq!(bench.out, [0xAA; 48]);
}

/// Presses the top paddle; the level right after, and after the gap.
fn levels_of_press(ticks: u32) -> (u8, u8) {
    let mut bench = Bench::new(&image());
    bench.press(0);
    bench.ticks(ticks);
    let after = bench.release(0).level;
    (after, bench.ticks(180).level)
}

#[test]
fn f_presses() {
    assert_eq!(levels_of_press(59), (80, 80));
    assert_eq!(levels_of_press(60), (80, 20));
    assert_eq!(levels_of_press(179), (80, 20));
    assert_eq!(levels_of_press(180), (200, 200));
}

#[test]
fn f_tap_closes_at_the_180th_tick() {
    let mut bench = Bench::new(&image());
    bench.press(2);
    bench.ticks(60);
    bench.release(2);
    assert_eq!(bench.ticks(179).level, 80);
    assert_eq!(bench.tick().level, 20);
}

/// Two presses of 60 ticks with `gap` ticks between.
fn level_after_gap(gap: u32) -> u8 {
    let mut bench = Bench::new(&image());
    bench.press(1);
    bench.ticks(60);
    bench.release(1);
    bench.ticks(gap);
    bench.press(1);
    bench.ticks(60);
    bench.release(1);
    bench.ticks(180).level
}

#[test]
fn g_gap() {
    assert_eq!(level_after_gap(179), 70);
    assert_eq!(level_after_gap(180), 60);
}

#[test]
fn g_short_press_leaves_the_gap() {
    let mut bench = Bench::new(&image());
    bench.tap(0, 1);
    bench.ticks(169);
    bench.press(0);
    bench.ticks(59);
    assert_eq!(bench.release(0).level, 80);
    assert_eq!(bench.tick().level, 20);
}

/// Fades from 0 and counts the ticks until the target is reached.
fn ticks_of_fade(percent: u8, rate: u8) -> u32 {
    let mut image = image();
    image[0xF9] = 0;
    let mut bench = Bench::new(&image);
    assert_eq!(bench.send(false, 5, 9, &[0x23, percent, rate]).level, 0);
    let mut ticks = 1;
    while bench.tick().level != 2 * percent {
        ticks += 1;
    }
    assert_eq!(bench.ticks(5000).level, 2 * percent);
    ticks
}

#[test]
fn h_fades() {
    assert_eq!(ticks_of_fade(50, 4), 600);
    assert_eq!(ticks_of_fade(100, 15), 864_000);
}

#[test]
fn i_version_digit() {
    let mut image = image();
    image[0x0B] = 0xF2;
    let (switch, answer) = Switch::start(&image).unwrap();
    let mut bench = Bench {
        switch,
        out: [0; 48],
    };
    let mut colour = answer.colour;
    for blink in [Colour::Red, Colour::Red, Colour::Green, Colour::Red] {
        for shown in [blink, Colour::Black] {
            for _ in 0..60 {
                assert_eq!(colour, shown);
                colour = bench.tick().colour;
            }
        }
    }
    assert_eq!(colour, Colour::Green);
}

/// What a top single sends with this table entry as command 6.
fn sent_by_single(entry: [u8; 3]) -> Vec<u8> {
    let mut image = image();
    image[0x70..0x72].copy_from_slice(&[9, 0xF6]);
    image[0xA2..0xA5].copy_from_slice(&entry);
    let mut bench = Bench::new(&image);
    bench.press(0);
    bench.ticks(60);
    bench.release(0);
    let answer = bench.ticks(180);
    assert_eq!(answer.level, 20);
    bench.out[..answer.lengths[0] as usize].to_vec()
}

#[test]
fn j_command_entry() {
    assert_eq!(
        sent_by_single([0x22, 255, 255]),
        [0x88, 0, 1, 9, 5, 0x22, 0xFF, 0x48]
    );
    assert_eq!(sent_by_single([0x25, 255, 255])[5..6], [0x25]);
    assert_eq!(sent_by_single([0x25, 255, 255]).len(), 7);
    assert_eq!(sent_by_single([0x23, 255, 5])[5..8], [0x23, 255, 5]);
    assert_eq!(sent_by_single([0x20, 255, 5])[5..8], [0x20, 255, 5]);
    assert!(sent_by_single([255, 1, 2]).is_empty());
}

#[test]
fn two_paddles_through_setup_to_factory() {
    let mut bench = Bench::new(&image());
    bench.tap(1, 5);
    for _ in 0..4 {
        bench.tap(0, 1);
        bench.tap(1, 1);
    }
    bench.press(0);
    bench.press(1);
    bench.ticks(60);
    bench.release(0);
    bench.release(1);
    assert_eq!(bench.ticks(179).mode, Mode::Normal);
    assert_eq!(bench.tick().mode, Mode::Factory);
    let registers = bench.switch.image();
    assert_eq!(registers[..4], [255, 1, 0x12, 0x34]);
    assert_eq!(registers[0x7A..0x82], [100, 255, 100, 0, 0, 255, 0, 0]);
    assert_eq!(
        (registers[0x0B], registers[0x10], registers[0x3F]),
        (255, 0, 0)
    );
    assert_eq!(
        (registers[0x40], registers[0x8B], registers[0x8D]),
        (255, 0x09, 0x13)
    );
    assert_eq!(
        (registers[0xBF], registers[0xF9], registers[0xFA]),
        (255, 40, 1)
    );
}

#[test]
fn registers_are_masked_by_address_outside_setup() {
    let mut bench = Bench::new(&image());
    let answer = bench.send(false, 5, 9, &[0x10, 0x01, 3]);
    assert_eq!(answer.lengths, [11, 0]);
    assert_eq!(bench.out[5..10], [0x90, 0x01, 5, 0, 0]);
    bench.send(false, 5, 9, &[0x03, 0x12, 0x34]);
    bench.send(false, 5, 9, &[0x10, 0x01, 3]);
    assert_eq!(bench.out[5..10], [0x90, 0x01, 5, 0x12, 0x34]);
    assert_eq!(bench.send(false, 5, 9, &[0x10, 0xF0, 16]).number, 0);
    assert_eq!(bench.send(false, 5, 9, &[0x10, 0xF1, 16]).number, 12);
    assert_eq!(bench.send(false, 5, 9, &[0x11, 0xFF, 1]).number, 0);
    assert_eq!(bench.send(false, 5, 9, &[0x11, 0xFF, 1, 2]).number, 12);
}

#[test]
fn checks_run_in_order() {
    let mut bench = Bench::new(&image());
    assert_eq!(bench.switch.press(4, &mut [0; 47]).number, 2);
    assert_eq!(bench.switch.press(4, &mut [0; 48]).number, 3);
    assert_eq!(bench.receive(&[]).number, 4);
    assert_eq!(bench.receive(&[0; 25]).number, 5);
    assert_eq!(bench.receive(&[0; 7]).number, 6);
    assert_eq!(bench.receive(&[7, 0x80, 0, 0, 0, 0, 0x79]).number, 8);
    assert_eq!(bench.receive(&[7, 0, 2, 5, 9, 0x30, 0xB9]).number, 9);
    assert_eq!(bench.send(false, 6, 9, &[0x30]).number, 10);
    assert_eq!(bench.send(true, 255, 9, &[0x20]).number, 10);
    assert_eq!(bench.send(false, 5, 9, &[0x86, 1]).number, 11);
    assert_eq!(bench.send(true, 3, 9, &[0x10, 0, 0]).number, 12);
    assert_eq!(bench.send(false, 5, 9, &[0x20, 1]).number, 12);
    assert_eq!(bench.send(false, 5, 9, &[0x20]).number, 13);
    assert_eq!(bench.send(false, 0, 9, &[0x03, 0, 0]).number, 13);
    assert_eq!(bench.send(false, 5, 0, &[0x30]).number, 13);
    assert_eq!(Switch::start(&[0; 255]).err(), Some(1));
}

#[test]
fn blink_flips_and_stop_remembers() {
    let mut bench = Bench::new(&image());
    bench.send(false, 0, 0, &[0x22, 50, 0]);
    assert_eq!(bench.send(false, 0, 0, &[0x25, 2]).level, 200);
    assert_eq!(bench.ticks(7).level, 200);
    assert_eq!(bench.tick().level, 0);
    bench.send(false, 0, 0, &[0x24]);
    assert_eq!(bench.ticks(20).level, 0);
    assert_eq!(bench.send(false, 0, 0, &[0x22, 101, 0]).level, 100);
}

#[test]
fn last_on_level_is_held_in_steps() {
    let mut bench = Bench::new(&image());
    bench.send(true, 3, 9, &[0x22, 0, 0]);
    bench.send(true, 3, 9, &[0x23, 100, 15]);
    assert_eq!(bench.ticks(4320).level, 1);
    bench.send(true, 3, 9, &[0x24]);
    assert_eq!(bench.send(true, 3, 9, &[0x31]).number, 0);
    assert_eq!(bench.switch.image()[0x41], 0);
    bench.send(true, 3, 9, &[0x21]);
    assert_eq!(bench.send(true, 3, 9, &[0x22, 255, 0]).level, 1);
}

#[test]
fn level_is_saved_every_480th_tick() {
    let mut bench = Bench::new(&image());
    bench.send(false, 5, 9, &[0x22, 77, 0]);
    bench.ticks(479);
    assert_eq!(bench.switch.tick(&mut [0; 47]).number, 2);
    assert_eq!(bench.switch.image()[0xF9], 40);
    bench.tick();
    assert_eq!(bench.switch.image()[0xF9], 77);
    let answer = bench.switch.restart(&mut [0; 48]);
    assert_eq!((answer.number, answer.level), (0, 154));
    assert_eq!(bench.switch.image()[0xFC], 2);
}

#[test]
fn diagnostic_blinks() {
    let mut image = image();
    image[0x8B] = 0x80;
    let mut bench = Bench::new(&image);
    assert_eq!(bench.ticks(480).colour, Colour::Orange);
    assert_eq!(bench.receive(&STATUS).colour, Colour::Red);
    assert_eq!(bench.ticks(29).colour, Colour::Red);
    assert_eq!(bench.tick().colour, Colour::Orange);
    assert_eq!(bench.send(false, 5, 9, &[0x24]).colour, Colour::Green);
    assert_eq!(bench.receive(&[]).colour, Colour::Black);
    assert_eq!(bench.send(false, 6, 9, &[0x24]).colour, Colour::Black);
    assert_eq!(bench.ticks(30).colour, Colour::Orange);
}
