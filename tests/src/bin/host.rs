//! Plays seeded plans on the proved switch, through `host`, and on the reference, event by event: `host EVENTS [FIRST_SEED]`.
//! Answers, whole buffers and all 256 registers must be equal after every event.

use std::process::ExitCode;
use trials::generate::{plan, Event};
use trials::programs::{count, first_seed};
use trials::random::Random;

/// The largest buffer that a plan lends.
const MOST_ROOM: usize = 4096;

/// Both switches of one plan, and the buffers that are lent to them.
struct Pair {
    proved: melszondru::Switch,
    reference: reference::Switch,
    left: Vec<u8>,
    right: Vec<u8>,
    room: usize,
    fill: Random,
}

fn main() -> ExitCode {
    let arguments: Vec<String> = std::env::args().skip(1).collect();
    match run(&arguments) {
        Ok((events, plans)) => {
            println!("{events} events of {plans} plans through host, equal");
            ExitCode::SUCCESS
        }
        Err(error) => {
            println!("host: {error}");
            ExitCode::FAILURE
        }
    }
}

fn run(arguments: &[String]) -> Result<(u64, u64), String> {
    let [events, rest @ ..] = arguments else {
        return Err("usage: host EVENTS [FIRST_SEED]".into());
    };
    let (wanted, first) = (count(events)?, first_seed(rest.first())?);
    let (mut done, mut plans) = (0, 0);
    while done < wanted {
        let seed = first + plans;
        done += played(seed, wanted - done).map_err(|error| format!("seed {seed}: {error}"))?;
        plans += 1;
    }
    Ok((done, plans))
}

/// How many events of the plan were played, at most `most`.
fn played(seed: u64, most: u64) -> Result<u64, String> {
    let plan = plan(seed);
    let mut pair = Pair::start(&plan.image, seed)?;
    let mut done = 0;
    for event in &plan.events {
        let times = match event {
            Event::Ticks(ticks) => u64::from(*ticks),
            Event::Room(_) | Event::Dump => 0,
            _ => 1,
        };
        if let Event::Room(room) = event {
            pair.room = *room;
        }
        for _ in 0..times.min(most - done) {
            pair.play(event)
                .map_err(|error| format!("event {done}, {event:?}: {error}"))?;
            done += 1;
        }
    }
    Ok(done)
}

impl Pair {
    fn start(image: &[u8], seed: u64) -> Result<Pair, String> {
        for wrong in [&image[..255], &[]] {
            let refused = (
                melszondru::Switch::start(wrong).err().map(u8::from),
                reference::Switch::start(wrong).err(),
            );
            same("a refused start", &refused.0, &refused.1)?;
        }
        let (proved, answer) = melszondru::Switch::start(image)
            .map_err(|refusal| format!("the start is {refusal}"))?;
        let (reference, other) = reference::Switch::start(image)
            .map_err(|number| format!("the reference refuses by {number}"))?;
        same("the first answer", &numbers(&answer), &others(&other))?;
        Ok(Pair {
            proved,
            reference,
            left: vec![0; MOST_ROOM],
            right: vec![0; MOST_ROOM],
            room: melszondru::ROOM,
            fill: Random::new(seed),
        })
    }

    /// One event on both, with buffers of random bytes.
    fn play(&mut self, event: &Event) -> Result<(), String> {
        for at in (0..self.room).step_by(8) {
            let bytes = self.fill.draw().to_le_bytes();
            let end = self.room.min(at + 8);
            self.left[at..end].copy_from_slice(&bytes[..end - at]);
        }
        let (left, right) = (&mut self.left[..self.room], &mut self.right[..self.room]);
        right.copy_from_slice(left);
        let (answer, other) = match event {
            Event::Press(contact) => (
                self.proved.press(*contact, left),
                self.reference.press(*contact, right),
            ),
            Event::Release(contact) => (
                self.proved.release(*contact, left),
                self.reference.release(*contact, right),
            ),
            Event::Ticks(_) => (self.proved.tick(left), self.reference.tick(right)),
            Event::Packet(packet) => (
                self.proved.receive(packet, left),
                self.reference.receive(packet, right),
            ),
            Event::Restart => (self.proved.restart(left), self.reference.restart(right)),
            Event::Room(_) | Event::Dump => return Ok(()),
        };
        same("answer", &numbers(&answer), &others(&other))?;
        same("buffer", &*left, &*right)?;
        same("registers", &self.proved.image(), &self.reference.image())
    }
}

/// An answer's numbers, and the lengths of its packets.
type Told = ([u8; 6], [usize; melszondru::PADDLES]);

fn numbers(answer: &melszondru::Answer) -> Told {
    let numbers = [
        answer.number(),
        answer.count() as u8,
        answer.level(),
        answer.output(),
        answer.colour().into(),
        answer.mode().into(),
    ];
    (numbers, answer.lengths())
}

fn others(answer: &reference::Answer) -> Told {
    let numbers = [
        answer.number,
        answer.count,
        answer.level,
        answer.output,
        answer.colour as u8,
        answer.mode as u8,
    ];
    (numbers, answer.lengths.map(usize::from))
}

fn same<T: PartialEq + std::fmt::Debug + ?Sized>(
    what: &str,
    proved: &T,
    reference: &T,
) -> Result<(), String> {
    if proved == reference {
        return Ok(());
    }
    Err(format!(
        "{what}: proved {proved:?}, reference {reference:?}"
    ))
}
