//! The same book on both sides: the bytes that it gives, and the book that they give again.

use plain::snapshot::write;
use side::{Book, Side};

use super::expected::Expected;
use super::unsound::FAULTS;
use super::without_edition;

/// A buffer that every snapshot fits.
pub const WIDE: usize = 81_920;

const UNSOUND: u64 = 15;
const SHORT: u64 = 14;

/// The bytes of a book, which the side writes too: into a wide buffer and into one that just fits;
/// one byte less gives 14.
pub fn written_alike(side: &mut dyn Side, book: &Book) -> Result<Vec<u8>, String> {
    let bytes = write(book).map_err(|number| format!("a book is not written: {number}"))?;
    for room in [WIDE, bytes.len()] {
        match side.snapshot(room) {
            Ok(other) if other == bytes => {}
            Ok(other) => return Err(bytes_differ(&bytes, &other, side.name())),
            Err(number) => return Err(wrong_number(side.name(), room, number)),
        }
    }
    let room = bytes.len() - 1;
    match side.snapshot(room) {
        Err(SHORT) => Ok(bytes),
        Err(number) => Err(wrong_number(side.name(), room, number)),
        Ok(_) => Err(wrong_number(side.name(), room, 0)),
    }
}

/// The side reads a snapshot without its edition as the plain reader does: where the book has no more
/// rounds than edition 3 allows, as the same book of that one.
pub fn old_form_alike(side: &mut dyn Side, bytes: &[u8]) -> Result<(), String> {
    let mut expected = Expected::default();
    let _ = expected.take(without_edition(bytes).to_vec())?;
    expected.compare(side)
}

/// The side reads these bytes as this book, of its own edition.
pub fn restored_alike(side: &mut dyn Side, bytes: &[u8], book: &Book) -> Result<(), String> {
    if let Err((number, offset)) = side.restore(bytes) {
        return Err(format!("{} refuses a snapshot: {number} {offset}", side.name()));
    }
    let mut flat = Vec::new();
    book.flat(&mut flat);
    if side.flat() == flat {
        Ok(())
    } else {
        Err(format!("{} reads another book of a snapshot", side.name()))
    }
}

/// Each fault that fits the book makes it unsound: 15 in a wide buffer and, before 14, in one
/// without room. The number of faults that were planted.
pub fn unsound_alike(side: &mut dyn Side, book: &Book) -> Result<u64, String> {
    let (mut planted, mut flat) = (0, Vec::new());
    for (name, fault) in FAULTS {
        let mut faulty = book.clone();
        if fault(&mut faulty).is_none() {
            continue;
        }
        faulty.flat(&mut flat);
        side.load(&flat);
        let answers = [write(&faulty), side.snapshot(WIDE), side.snapshot(0)];
        if answers.iter().any(|answer| *answer != Err(UNSOUND)) {
            let [one, two, short] = answers.map(|answer| answer.err().unwrap_or(0));
            let name = format!("a book with {name} is written");
            return Err(format!(
                "{name}: plainly {one}, {} {two}, without room {short}",
                side.name()
            ));
        }
        planted += 1;
    }
    Ok(planted)
}

fn wrong_number(name: &str, room: usize, number: u64) -> String {
    format!("{name} writes a snapshot into {room} bytes: {number}")
}

fn bytes_differ(bytes: &[u8], other: &[u8], name: &str) -> String {
    let same = bytes.iter().zip(other).take_while(|(one, two)| one == two).count();
    let (one, two) = (bytes.len(), other.len());
    format!("the snapshots differ from byte {same} on: {one} bytes, {name} {two}")
}
