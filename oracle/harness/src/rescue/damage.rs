//! Sorts of damage.

use std::ops::Range;

use journal::{field, header, journal, kinds, Command, HEADER_SIZE, LATEST};

use crate::chance::Chance;
use crate::damage::wrong_record;

/// A journal of these commands, of an edition, with this sort of damage.
type Damage = fn(&mut Chance, u64, &[Command]) -> Vec<u8>;
/// A damage that takes bytes for bytes.
type Wound = fn(&mut Chance, &mut Vec<u8>);

pub const SORTS: [(&str, Damage); 16] = [
    ("none", |_, edition, commands| journal(edition, commands)),
    ("flipped bytes", |chance, edition, commands| wounded(chance, edition, commands, flip)),
    ("cut", |chance, edition, commands| wounded(chance, edition, commands, cut)),
    ("inserted bytes", |chance, edition, commands| wounded(chance, edition, commands, insert)),
    ("removed bytes", |chance, edition, commands| wounded(chance, edition, commands, remove)),
    ("duplicated bytes", |chance, edition, commands| wounded(chance, edition, commands, duplicate)),
    ("swapped records", swapped),
    ("another edition's", of_others),
    ("outer lengths", other_lengths),
    ("wrong fields", wrong_fields),
    ("unknown tags", unknown_tags),
    ("densest", densest),
    ("noise", noise),
    ("empty", empty),
    ("bad header", bad_header),
    ("several", several),
];

const WOUNDS: [Wound; 5] = [flip, cut, insert, remove, duplicate];

/// Tags next to those of commands, a field's and the header's among them.
const UNKNOWN: [u8; 14] =
    [0x00, 0x01, 0x10, 0x20, 0x28, 0x30, 0x39, 0x40, 0x45, 0x50, 0x57, 0x60, 0xA1, 0xFF];

fn wounded(chance: &mut Chance, edition: u64, commands: &[Command], wound: Wound) -> Vec<u8> {
    let mut bytes = journal(edition, commands);
    wound(chance, &mut bytes);
    bytes
}

/// A place after the header, or the end.
fn place(chance: &mut Chance, bytes: &[u8]) -> usize {
    let first = HEADER_SIZE.min(bytes.len());
    first + chance.below((bytes.len() - first) as u64 + 1) as usize
}

/// Some bytes after the header: a few, or as many as the journal has.
fn range(chance: &mut Chance, bytes: &[u8]) -> Range<usize> {
    let at = place(chance, bytes);
    let most = if chance.percent(20) { bytes.len() as u64 } else { 40 };
    at..bytes.len().min(at + chance.within(1, most.max(1)) as usize)
}

fn flip(chance: &mut Chance, bytes: &mut Vec<u8>) {
    for _ in 0..chance.within(1, 6) {
        let at = place(chance, bytes);
        let by = chance.pick(&[1, 2, 4, 8, 16, 32, 64, 128, 255]);
        bytes[at..].iter_mut().take(1).for_each(|byte| *byte ^= by);
    }
}

fn cut(chance: &mut Chance, bytes: &mut Vec<u8>) {
    bytes.truncate(place(chance, bytes));
}

fn insert(chance: &mut Chance, bytes: &mut Vec<u8>) {
    let (at, zeros) = (place(chance, bytes), chance.percent(30));
    let count = chance.within(1, 40);
    let new: Vec<_> = (0..count).map(|_| if zeros { 0 } else { chance.number() as u8 }).collect();
    bytes.splice(at..at, new);
}

fn remove(chance: &mut Chance, bytes: &mut Vec<u8>) {
    bytes.drain(range(chance, bytes));
}

fn duplicate(chance: &mut Chance, bytes: &mut Vec<u8>) {
    let copied = bytes[range(chance, bytes)].to_vec();
    let at = place(chance, bytes);
    bytes.splice(at..at, copied);
}

fn records(edition: u64, commands: &[Command]) -> Vec<Vec<u8>> {
    let record = |command| journal(edition, &[command])[HEADER_SIZE..].to_vec();
    commands.iter().copied().map(record).collect()
}

fn joined(edition: u64, records: &[Vec<u8>]) -> Vec<u8> {
    [header(edition).to_vec(), records.concat()].concat()
}

fn one_of(chance: &mut Chance, records: &[Vec<u8>]) -> usize {
    chance.below(records.len() as u64) as usize
}

/// Some are swapped and, mostly, some of them spoiled inside.
fn swapped(chance: &mut Chance, edition: u64, commands: &[Command]) -> Vec<u8> {
    let mut records = records(edition, commands);
    for _ in 0..chance.within(1, 4) {
        let (one, two) = (one_of(chance, &records), one_of(chance, &records));
        records.swap(one, two);
        if chance.percent(60) {
            let at = chance.within(3, records[one].len() as u64 - 1) as usize;
            records[one][at] = chance.number() as u8;
        }
    }
    joined(edition, &records)
}

/// All records of another edition, or each of some edition.
fn of_others(chance: &mut Chance, edition: u64, commands: &[Command]) -> Vec<u8> {
    let (all, other) = (chance.percent(50), chance.within(1, LATEST));
    let mut bytes = header(edition).to_vec();
    for command in commands {
        let edition = if all { other } else { chance.within(1, LATEST) };
        journal::write(edition, command, &mut bytes);
    }
    bytes
}

/// Of one record or a few: to its end, to the journal's end, or a little off them.
fn other_lengths(chance: &mut Chance, edition: u64, commands: &[Command]) -> Vec<u8> {
    let mut records = records(edition, commands);
    for _ in 0..chance.pick(&[1, 1, 2, 5]) {
        let one = one_of(chance, &records);
        let inside = (records[one].len() - 3) as u64;
        let to_end = records[one..].concat().len() as u64 - 3;
        let near = chance.pick(&[inside, inside + 11, inside - 11, to_end]);
        let length = match chance.below(4) {
            0 => chance.pick(&[0, 8, 11, 255, 256, 65_535]),
            1 => chance.below(to_end + 12),
            _ => (near + chance.within(0, 2)).saturating_sub(1),
        };
        let length = length.min(65_535) as u16;
        records[one][1..3].copy_from_slice(&length.to_be_bytes());
    }
    joined(edition, &records)
}

/// One record in three with a field missing, twice, out of order, too long, too great or unknown.
fn wrong_fields(chance: &mut Chance, edition: u64, commands: &[Command]) -> Vec<u8> {
    let mut bytes = header(edition).to_vec();
    for command in commands {
        if chance.below(3) == 0 {
            wrong_record(chance, edition, command, &mut bytes);
        } else {
            journal::write(edition, command, &mut bytes);
        }
    }
    bytes
}

/// Nothing is kept: every record has a tag that no command has.
fn unknown_tags(chance: &mut Chance, edition: u64, commands: &[Command]) -> Vec<u8> {
    let mut records = records(edition, commands);
    records.iter_mut().for_each(|record| record[0] = chance.pick(&UNKNOWN));
    joined(edition, &records)
}

/// Nothing is kept: records of three bytes, tags of commands among them.
fn densest(chance: &mut Chance, edition: u64, _: &[Command]) -> Vec<u8> {
    let mut bytes = header(edition).to_vec();
    for _ in 0..chance.within(1, 400) {
        field(chance.number() as u8, &[], &mut bytes);
    }
    bytes
}

/// Any bytes, in records that mostly fit.
fn noise(chance: &mut Chance, edition: u64, commands: &[Command]) -> Vec<u8> {
    let mut bytes = header(edition).to_vec();
    let tags: Vec<_> = kinds(edition).map(|kind| kind.tag).collect();
    for _ in commands {
        let tag = if chance.percent(70) { chance.pick(&tags) } else { chance.number() as u8 };
        let inside: Vec<_> = (0..chance.below(60)).map(|_| chance.number() as u8).collect();
        field(tag, &inside, &mut bytes);
        if chance.percent(10) {
            bytes.push(chance.number() as u8);
        }
    }
    bytes
}

/// No record: the header alone, or one or two bytes after it.
fn empty(chance: &mut Chance, edition: u64, _: &[Command]) -> Vec<u8> {
    let mut bytes = header(edition).to_vec();
    for _ in 0..chance.below(3) {
        bytes.push(chance.number() as u8);
    }
    bytes
}

/// Another edition (of those that there are too), another tag or length, a cut or missing header.
fn bad_header(chance: &mut Chance, edition: u64, commands: &[Command]) -> Vec<u8> {
    let mut bytes = journal(edition, commands);
    match chance.below(6) {
        0 => bytes.truncate(chance.below(HEADER_SIZE as u64) as usize),
        1 => drop(bytes.drain(..chance.within(1, HEADER_SIZE as u64) as usize)),
        2 => bytes.insert(chance.below(HEADER_SIZE as u64) as usize, chance.number() as u8),
        3 => bytes[4] = chance.below(LATEST + 3) as u8,
        4 => bytes[chance.below(HEADER_SIZE as u64) as usize] = chance.number() as u8,
        _ => bytes[chance.below(HEADER_SIZE as u64) as usize] ^= 1 << chance.below(8),
    }
    bytes
}

/// A damage of records, then some of bytes.
fn several(chance: &mut Chance, edition: u64, commands: &[Command]) -> Vec<u8> {
    let first: [Damage; 4] = [swapped, of_others, other_lengths, wrong_fields];
    let mut bytes = chance.pick(&first)(chance, edition, commands);
    for _ in 0..chance.within(1, 4) {
        chance.pick(&WOUNDS)(chance, &mut bytes);
    }
    bytes
}
