//! Journals of mixed commands, by the comparison's generator: refusals among them, agreements, closings, repayments.

use harness::chance::Chance;
use harness::generate::{Generator, Plan};
use harness::pair::{Pair, Start};
use plain::Plain;

/// The original's edition, which both sides have.
const EDITION: u64 = layer::EDITION;

/// Writes so many journals one after the other, each after its length in eight bytes.
pub fn write(file: &str, journals: u64, commands: usize) {
    let mut all = Vec::new();
    for seed in 0..journals {
        let bytes = one(seed, commands);
        all.extend((bytes.len() as u64).to_be_bytes());
        all.extend(bytes);
    }
    std::fs::write(file, all).expect("the file can be written");
}

pub fn read(file: &str) -> Vec<Vec<u8>> {
    let all = std::fs::read(file).expect("the file can be read");
    let mut rest = &all[..];
    let mut journals = Vec::new();
    while let Some((length, more)) = rest.split_first_chunk() {
        let (bytes, after) = more.split_at(u64::from_be_bytes(*length) as usize);
        journals.push(bytes.to_vec());
        rest = after;
    }
    journals
}

fn one(seed: u64, commands: usize) -> Vec<u8> {
    let mut chance = Chance::new(seed);
    let plan = Plan::new(&mut chance);
    let mut generator = Generator::new(Chance::new(chance.number()), plan);
    let mut plain = Plain::with_slip(None);
    let mut pair = Pair::start(&mut plain, &Start::Fresh(EDITION));
    let mut bytes = journal::journal(EDITION, &[]);
    for _ in 0..commands {
        let command = generator.next(&pair.book);
        pair.step(&command).expect("the plain model agrees");
        journal::write(EDITION, &command, &mut bytes);
    }
    bytes
}
