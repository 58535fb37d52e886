//! A script in the making: events are added one by one and the belief follows them.

use crate::belief::Belief;
use crate::generate::Event;
use crate::packets;
use crate::random::Random;

pub struct Play {
    pub random: Random,
    pub belief: Belief,
    pub events: Vec<Event>,
    /// Ticks in all the events so far.
    pub passed: u32,
}

impl Play {
    pub fn new(random: Random, registers: [u8; 256]) -> Play {
        Play {
            random,
            belief: Belief::new(registers),
            events: Vec::new(),
            passed: 0,
        }
    }

    pub fn press(&mut self, contact: u8) {
        self.belief.edge(contact, true);
        self.events.push(Event::Press(contact));
    }

    pub fn release(&mut self, contact: u8) {
        self.belief.edge(contact, false);
        self.events.push(Event::Release(contact));
    }

    /// Ticks in one event; none for 0.
    pub fn wait(&mut self, ticks: u32) {
        if ticks > 0 {
            self.belief.ticks(ticks);
            self.passed += ticks;
            self.events.push(Event::Ticks(ticks));
        }
    }

    /// Ticks with, now and then, another event in their midst.
    pub fn lull(&mut self, ticks: u32) {
        if ticks < 2 || !self.random.chance(5) {
            return self.wait(ticks);
        }
        let first = self.random.between(1, ticks - 1);
        self.wait(first);
        match self.random.below(8) {
            0 => self.dump(),
            1 => self.press(4),
            2 => packets::damaged(self),
            3 => packets::sloppy(self),
            4 => {}
            _ => packets::level(self),
        }
        self.wait(ticks - first);
    }

    pub fn send(&mut self, packet: Vec<u8>) {
        self.belief.hear(&packet);
        self.events.push(Event::Packet(packet));
    }

    pub fn restart(&mut self) {
        self.belief.restart();
        self.events.push(Event::Restart);
    }

    pub fn dump(&mut self) {
        self.events.push(Event::Dump);
    }

    pub fn room(&mut self, bytes: usize) {
        self.belief.room = bytes;
        self.events.push(Event::Room(bytes));
    }

    /// Lets every contact go and every run close.
    pub fn settle(&mut self) {
        if self.belief.room < 48 {
            self.room(48);
        }
        for contact in 0..4 {
            if self.belief.is_down(contact) {
                self.release(contact);
            }
        }
        if !self.belief.quiet() {
            self.wait(180);
        }
    }
}
