//! Reading, driven by the table of commands.

use crate::command::{listed, Command, Numbers};
use crate::edition::LATEST;
use crate::number::{NARROW, TAGS};
use crate::write::header;

#[derive(Clone, Copy, Debug, PartialEq, Eq)]
pub enum Step {
    /// A command, and where the next record starts.
    Command(Command, usize),
    /// The record that starts here is malformed.
    Malformed,
    /// Nothing is left.
    End,
}

/// The edition that a journal's header names; none where the header is bad.
pub fn edition_of(journal: &[u8]) -> Option<u64> {
    (1..=LATEST).find(|edition| journal.starts_with(&header(*edition)))
}

/// Reads the record of an edition that starts at `at`.
pub fn read(edition: u64, journal: &[u8], at: usize) -> Step {
    let rest = &journal[at..];
    if rest.is_empty() {
        return Step::End;
    }
    match split(rest).and_then(|(tag, inside, _)| command(edition, tag, inside)) {
        Some((command, length)) => Step::Command(command, at + length),
        None => Step::Malformed,
    }
}

/// A field at the front: its tag, its bytes and what follows it.
fn split(bytes: &[u8]) -> Option<(u8, &[u8], &[u8])> {
    let (front, rest) = bytes.split_at_checked(3)?;
    let length = usize::from(u16::from_be_bytes([front[1], front[2]]));
    let (inside, rest) = rest.split_at_checked(length)?;
    Some((front[0], inside, rest))
}

/// The command that a record holds, and the record's length.
fn command(edition: u64, tag: u8, inside: &[u8]) -> Option<(Command, usize)> {
    let mut numbers: Numbers = [0; TAGS];
    let mut rest = inside;
    for wanted in listed(edition, tag)?.fields(edition) {
        let (found, bytes, after) = split(rest)?;
        let number = u64::from_be_bytes(bytes.try_into().ok()?);
        let fits = !NARROW.contains(&wanted) || number <= u32::MAX.into();
        if found != wanted || !fits {
            return None;
        }
        numbers[wanted as usize] = number;
        rest = after;
    }
    if !rest.is_empty() {
        return None;
    }
    Some((Command::of_numbers(tag, &numbers)?, 3 + inside.len()))
}

#[cfg(test)]
mod test {
    use super::*;
    use crate::{journal, kinds, write};

    /// Each command twice: with small numbers and with the greatest.
    fn samples(edition: u64) -> Vec<Command> {
        let mut samples = Vec::new();
        for kind in kinds(edition) {
            for greatest in [false, true] {
                let mut numbers: Numbers = [0; TAGS];
                for tag in kind.fields(edition) {
                    let narrow = NARROW.contains(&tag);
                    let most = if narrow { u32::MAX.into() } else { u64::MAX };
                    numbers[tag as usize] = if greatest { most } else { tag as u64 + 7 };
                }
                samples.push(Command::of_numbers(kind.tag, &numbers).unwrap());
            }
        }
        samples
    }

    #[test]
    fn written_commands_are_read_back() {
        for edition in 1..=LATEST {
            let commands = samples(edition);
            let bytes = journal(edition, &commands);
            assert_eq!(edition_of(&bytes), Some(edition));
            let mut at = 5;
            for command in &commands {
                let Step::Command(read, next) = read(edition, &bytes, at) else {
                    panic!("{command}")
                };
                assert_eq!(read, *command);
                at = next;
            }
            assert_eq!(read(edition, &bytes, at), Step::End);
        }
    }

    #[test]
    fn headers_name_the_editions_up_to_the_latest() {
        for edition in [0, LATEST + 1, 257, 65_535] {
            assert_eq!(edition_of(&header(edition)), None);
        }
        for edition in 1..=LATEST {
            assert_eq!(edition_of(&header(edition)[..4]), None);
            assert_eq!(edition_of(&[header(edition).as_slice(), &[0]].concat()), Some(edition));
        }
    }

    #[test]
    fn the_session_starts_as_document_01_writes_it() {
        let bytes = journal(1, &[Command::OpenAccount { now: 100, caller: 1 }]);
        let record = [
            [0x21, 0, 22].as_slice(),
            &[0x01, 0, 8, 0, 0, 0, 0, 0, 0, 0, 100],
            &[0x02, 0, 8, 0, 0, 0, 0, 0, 0, 0, 1],
        ];
        assert_eq!(bytes, [[0x10, 0, 2, 0, 1].as_slice(), &record.concat()].concat());
    }

    #[test]
    fn a_cut_or_longer_record_is_malformed() {
        let edition = LATEST;
        for command in samples(edition) {
            let mut record = Vec::new();
            write(edition, &command, &mut record);
            for length in 1..record.len() {
                assert_eq!(read(edition, &record[..length], 0), Step::Malformed);
            }
            let inside = record.len() - 3;
            let mut longer = record.clone();
            crate::field(0x12, &[0; 8], &mut longer);
            longer[1..3].copy_from_slice(&(inside as u16 + 11).to_be_bytes());
            assert_eq!(read(edition, &longer, 0), Step::Malformed);
            let Step::Command(_, next) = read(edition, &record, 0) else { panic!("{command}") };
            assert_eq!(next, record.len());
        }
    }

    /// A schedule's kind stands last, is of any size, and is there from edition 5 on.
    #[test]
    fn a_schedule_has_a_kind_from_edition_5_on() {
        let record_of = |fields: &[(u8, u64)]| {
            let (mut inside, mut record) = (Vec::new(), Vec::new());
            fields
                .iter()
                .for_each(|(tag, number)| crate::field(*tag, &number.to_be_bytes(), &mut inside));
            crate::field(0x38, &inside, &mut record);
            record
        };
        let bare = [(0x01, 100), (0x02, 1), (0x03, 20), (0x0A, 3), (0x0B, 1), (0x0C, 200)];
        for kind in [0, 1, 2, 1 << 32, u64::MAX] {
            let kinded = record_of(&[bare.as_slice(), &[(0x14, kind)]].concat());
            for edition in 1..=LATEST {
                let since = edition >= 5;
                let step = |kind, next| {
                    let (now, caller, id, count, code, first) = (100, 1, 20, 3, 1, 200);
                    let command =
                        Command::ScheduleRepayment { now, caller, id, count, code, first, kind };
                    Step::Command(command, next)
                };
                let [with, without] = [kinded.clone(), record_of(&bare)];
                let read = |record: &[u8]| read(edition, record, 0);
                assert_eq!(read(&with), if since { step(kind, 80) } else { Step::Malformed });
                assert_eq!(read(&without), if since { Step::Malformed } else { step(0, 69) });
            }
        }
    }

    #[test]
    fn thirty_two_bits_are_the_most_where_document_01_says_so() {
        let edition = LATEST;
        for tag in NARROW {
            let kind = kinds(edition).find(|kind| kind.fields(edition).contains(&tag)).unwrap();
            for (number, good) in [(u64::from(u32::MAX), true), (1 << 32, false)] {
                let mut inside = Vec::new();
                for present in kind.fields(edition) {
                    let number = if present == tag { number } else { 0 };
                    crate::field(present, &number.to_be_bytes(), &mut inside);
                }
                let mut record = Vec::new();
                crate::field(kind.tag, &inside, &mut record);
                assert_eq!(matches!(read(edition, &record, 0), Step::Command(..)), good);
            }
        }
    }
}
