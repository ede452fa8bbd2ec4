//! The commands that damaged journals are made of: the generator's and the fixed sample's.

use journal::{edition_of, read, Command, Step, HEADER_SIZE};
use plain::Plain;
use side::Side;

use crate::chance::Chance;
use crate::generate::{Generator, Plan};

/// From so many commands of one book journals are made, so many before the next book.
const COMMANDS: usize = 120;
const JOURNALS: u64 = 32;
/// So many journals in a hundred are of a sample's commands.
const OF_SAMPLES: u64 = 15;
/// A journal holds so many of them at most, but for one in `LONG_IN`, which holds all.
const SHORT: u64 = 24;
const LONG_IN: u64 = 40;

pub struct Source {
    edition: u64,
    /// The commands of each of the sample's journals of the edition.
    samples: Vec<Vec<Command>>,
    /// The commands of the present book.
    commands: Vec<Command>,
    made: u64,
}

impl Source {
    pub fn new(edition: u64, samples: &[Vec<u8>]) -> Source {
        let of_edition = samples.iter().filter(|bytes| edition_of(bytes) == Some(edition));
        let commands = of_edition.map(|bytes| commands_of(edition, bytes));
        let samples = commands.filter(|commands| !commands.is_empty()).collect();
        Source { edition, samples, commands: Vec::new(), made: 0 }
    }

    /// The commands of the next journal, one at least.
    pub fn next(&mut self, chance: &mut Chance) -> &[Command] {
        if self.made % JOURNALS == 0 {
            self.commands = generated(self.edition, chance);
        }
        self.made += 1;
        let commands = match self.samples.as_slice() {
            samples @ [_, ..] if chance.percent(OF_SAMPLES) => {
                &samples[chance.below(samples.len() as u64) as usize]
            }
            _ => &self.commands,
        };
        some(chance, commands)
    }
}

/// A few that follow each other, or all.
fn some<'a>(chance: &mut Chance, commands: &'a [Command]) -> &'a [Command] {
    if chance.below(LONG_IN) == 0 {
        return commands;
    }
    let at = chance.below(commands.len() as u64) as usize;
    let count = chance.within(1, SHORT) as usize;
    &commands[at..commands.len().min(at + count)]
}

/// The commands of a journal up to a malformed record.
fn commands_of(edition: u64, bytes: &[u8]) -> Vec<Command> {
    let (mut commands, mut at) = (Vec::new(), HEADER_SIZE);
    while let Step::Command(command, next) = read(edition, bytes, at) {
        commands.push(command);
        at = next;
    }
    commands
}

/// The commands of one growing book.
fn generated(edition: u64, chance: &mut Chance) -> Vec<Command> {
    let plan = Plan::new(chance);
    let mut generator = Generator::new(Chance::new(chance.number()), plan);
    let mut plain = Plain::default();
    plain.reset(edition);
    let next = |_| {
        let command = generator.next(plain.book());
        plain.run(&command);
        command
    };
    (0..COMMANDS).map(next).collect()
}
