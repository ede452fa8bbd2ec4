//! Damaged journals: the reading by table or the plain reading of the format against another side's.

use journal::{field, header, journal, kinds, Command, HEADER_SIZE, LATEST, NARROW, TAGS};
use side::Side;

use crate::chance::Chance;
use crate::reference;
use crate::vectors::Sample;

/// The listings of both sides for these bytes, if they differ.
pub fn listings_differ(other: &mut dyn Side, bytes: &[u8]) -> Option<(String, String)> {
    let (one, two) = (reference::listing(bytes), other.listing(bytes));
    (one.as_bytes() != two).then(|| (one, String::from_utf8_lossy(&two).into_owned()))
}

/// The answers of both sides to a sample's questions, if they differ.
pub fn answers_differ(other: &mut dyn Side, sample: &Sample) -> Option<(String, String)> {
    let one = reference::answers(&sample.bytes, &sample.questions);
    let two = other.answers(&sample.bytes, &sample.questions);
    let text = |answers: Result<String, String>| answers.unwrap_or_else(|fault| fault + "\n");
    (one != two).then(|| (text(one), text(two)))
}

/// A journal of these commands with one or two things wrong.
pub fn damaged(chance: &mut Chance, edition: u64, commands: &[Command]) -> Vec<u8> {
    let mut bytes = match chance.below(6) {
        0..2 => wrong_fields(chance, edition, commands),
        2 => of_another(chance, edition, commands),
        _ => journal(edition, commands),
    };
    for _ in 0..chance.below(3) {
        wound(chance, &mut bytes);
    }
    bytes
}

/// The records of some edition behind the header of this one.
fn of_another(chance: &mut Chance, edition: u64, commands: &[Command]) -> Vec<u8> {
    let records = journal(chance.within(1, LATEST), commands);
    [header(edition).as_slice(), &records[HEADER_SIZE..]].concat()
}

/// One byte lost, changed or added, or all from a place on lost.
pub(crate) fn wound(chance: &mut Chance, bytes: &mut Vec<u8>) {
    let length = bytes.len() as u64;
    if length == 0 {
        return bytes.push(chance.number() as u8);
    }
    let at = chance.below(length) as usize;
    match chance.below(8) {
        0 => bytes.truncate(at),
        1 => drop(bytes.remove(at)),
        2 => bytes.insert(at, chance.number() as u8),
        3 => bytes.push(chance.pick(&[0, 0x21, 0x10, 0xFF])),
        4 => bytes[at] = bytes[at].wrapping_add(1),
        5 => bytes[at] ^= 1 << chance.below(8),
        6 => bytes[chance.below(length.min(HEADER_SIZE as u64)) as usize] ^= 1,
        _ => bytes[at] = chance.number() as u8,
    }
}

/// One record written with a field missing, twice, out of order, too long, too great or unknown.
fn wrong_fields(chance: &mut Chance, edition: u64, commands: &[Command]) -> Vec<u8> {
    let mut bytes = header(edition).to_vec();
    let wrong = chance.below(commands.len() as u64 + 1) as usize;
    for (index, command) in commands.iter().enumerate() {
        if index == wrong {
            wrong_record(chance, edition, command, &mut bytes);
        } else {
            journal::write(edition, command, &mut bytes);
        }
    }
    bytes
}

pub(crate) fn wrong_record(
    chance: &mut Chance,
    edition: u64,
    command: &Command,
    out: &mut Vec<u8>,
) {
    let (mut tag, numbers) = command.numbers();
    let listed = command.kind().fields(edition).into_iter();
    let mut fields: Vec<_> = listed.map(|tag| (tag, numbers[tag as usize])).collect();
    let at = chance.below(fields.len() as u64) as usize;
    let mut width = 8;
    match chance.below(8) {
        0 => drop(fields.remove(at)),
        1 => fields.insert(at, fields[at]),
        2 => fields.swap(at, 0),
        3 => fields.push((chance.within(0x01, TAGS as u64) as u8, chance.number())),
        4 => width = chance.pick(&[0, 1, 4, 7, 9]),
        5 => fields[at].0 = chance.within(0, 0x20) as u8,
        6 => tag = chance.pick(&[0x20, 0x27, 0x30, 0x39, 0x40, 0x45, 0x50, 0x57, 0x10, 0xFF]),
        _ => too_great(chance, &mut fields),
    }
    let mut inside = Vec::new();
    for (index, (tag, number)) in fields.iter().enumerate() {
        let eight = [number.to_be_bytes().as_slice(), &[0]].concat();
        field(*tag, &eight[..if index == at { width } else { 8 }], &mut inside);
    }
    field(tag, &inside, out);
}

/// A number of 32 bits raised past them, if the command has one; else another command's tag would
/// do, but then the record is well formed, which is as good.
fn too_great(chance: &mut Chance, fields: &mut [(u8, u64)]) {
    let narrow = fields.iter_mut().filter(|(tag, _)| NARROW.contains(tag));
    narrow.for_each(|(_, number)| *number += chance.below(2) << 32);
}

/// The same fields under each tag in turn: at most one is theirs.
pub fn other_tags(edition: u64, command: &Command) -> Vec<Vec<u8>> {
    let (header, mut record) = (header(edition), Vec::new());
    journal::write(edition, command, &mut record);
    let tags = kinds(edition).map(|kind| kind.tag);
    let retagged = tags.map(|tag| [header.as_slice(), &[tag], &record[1..]].concat());
    retagged.collect()
}

#[cfg(test)]
mod test {
    use journal::{edition_of, read, Step};
    use plain::edition::fresh;
    use plain::Plain;

    use super::*;
    use crate::generate::{Generator, Plan};

    /// The number and the offset of the first malformed record, by the table.
    fn malformed(bytes: &[u8]) -> Option<(usize, usize)> {
        let Some(edition) = edition_of(bytes) else { return Some((0, 0)) };
        let mut at = HEADER_SIZE;
        for number in 1.. {
            match read(edition, bytes, at) {
                Step::Command(_, next) => at = next,
                Step::Malformed => return Some((number, at)),
                Step::End => return None,
            }
        }
        None
    }

    /// The same by the plain reading: the listing's line of three numbers.
    fn listed(bytes: &[u8]) -> Option<(usize, usize)> {
        let listing = String::from_utf8(Plain::default().listing(bytes)).unwrap();
        let parts = |line: &str| -> Vec<_> { line.split(' ').map(str::to_string).collect() };
        listing.lines().map(parts).find_map(|parts| match parts.as_slice() {
            [number, thirteen, offset] if thirteen == "13" => {
                Some((number.parse().ok()?, offset.parse().ok()?))
            }
            _ => None,
        })
    }

    /// Commands of the generator on a growing book.
    fn commands(edition: u64, chance: &mut Chance) -> Vec<Command> {
        let plan = Plan::new(chance);
        let mut generator = Generator::new(Chance::new(chance.number()), plan);
        let (mut plain, mut flat) = (Plain::default(), Vec::new());
        fresh(edition).flat(&mut flat);
        plain.load(&flat);
        let next = |_| {
            let command = generator.next(plain.book());
            plain.run(&command);
            command
        };
        (0..60).map(next).collect()
    }

    #[test]
    fn both_readings_stop_at_the_same_record() {
        for edition in 1..=LATEST {
            let mut chance = Chance::new(edition);
            let (mut whole, mut stopped) = (0, 0);
            for _ in 0..40 {
                let commands = commands(edition, &mut chance);
                for _ in 0..20 {
                    let bytes = damaged(&mut chance, edition, &commands);
                    let first = malformed(&bytes);
                    assert_eq!(first, listed(&bytes), "{edition}: {bytes:02x?}");
                    *(if first.is_none() { &mut whole } else { &mut stopped }) += 1;
                }
            }
            assert!(whole > 50 && stopped > 300, "{edition}: {whole} {stopped}");
        }
    }
}
