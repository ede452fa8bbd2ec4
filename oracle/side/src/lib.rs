//! What a side of the comparison is: a book that takes records and shows its whole state.

mod asking;
mod flat;
mod listing;
mod query;
mod rescue;
mod rows;
mod snapshot;

pub use asking::answered;
pub use listing::{answer_line, edition_line, malformed_line, tables, PROGRAM_HOLDS, TOO_LONG};
pub use query::{Query, Reply};
pub use rescue::{Rescue, Rescued, Room};
pub use rows::{Account, Book, Invoice, Offer, Round, Schedule, Totals};
pub use snapshot::{Reading, Refused, Restored};

/// One implementation of the book. A library of another language fits behind this trait with a
/// handful of functions on numbers and slices: `load` and `dump` pass the whole book as one flat
/// list of numbers, so such a library need keep nothing between calls.
pub trait Side {
    fn name(&self) -> &'static str;

    /// Starts from a fresh book of an edition, which a side must have.
    fn reset(&mut self, edition: u64);

    /// Starts from given rows, in the flat form of `Book::flat`. They make a sound book of an edition
    /// that a side must have; a side with snapshots takes an unsound one too, which is 15 from then on.
    fn load(&mut self, book: &[u64]);

    /// Applies one journal record (tag, length, fields) of the book's edition and answers with
    /// document 01's number. Bytes that are not exactly one well-formed record give 13 and change
    /// nothing.
    fn apply(&mut self, record: &[u8]) -> u64;

    /// Replaces `out` by the whole book in the flat form of `Book::flat`.
    fn dump(&self, out: &mut Vec<u64>);

    /// Answers a query into a lent buffer.
    fn ask(&mut self, query: Query, out: &mut [u64]) -> Reply;

    /// The whole output of the replay program for these input bytes, from a fresh book of the
    /// edition that their header names.
    fn listing(&mut self, journal: &[u8]) -> Vec<u8>;

    /// The whole output of the program `ask` for this journal and these lines of questions: the
    /// book that the journal leaves answers, a malformed one as after the record before. `Err`
    /// names a line that is no question.
    fn answers(&mut self, journal: &[u8], questions: &str) -> Result<String, String>;

    /// Writes the present book as a snapshot into a buffer of so many bytes: 15 where it is not
    /// sound, then 14 where the buffer is too short.
    fn snapshot(&mut self, _room: usize) -> Result<Vec<u8>, u64> {
        self.no_snapshots()
    }

    /// Reads a snapshot, whose book becomes the present one; a refusal leaves that as it is.
    fn restore(&mut self, _snapshot: &[u8]) -> Result<(), Refused> {
        self.no_snapshots()
    }

    /// Reads one after the other.
    fn restore_each(&mut self, readings: &[Reading]) -> Vec<Restored> {
        let restored = readings.iter().map(|reading| {
            let answer = self.restore(&reading.bytes);
            let book = reading.shown.then(|| self.flat());
            Restored { answer, book }
        });
        restored.collect()
    }

    /// The listing of a journal that is replayed on the present book, which becomes what the replay
    /// leaves. A header of another edition than the book's is a bad one: `0 13 0` and the book's
    /// tables.
    fn listing_from(&mut self, _journal: &[u8]) -> Vec<u8> {
        self.no_snapshots()
    }

    /// What a side without snapshots makes of the four before this.
    fn no_snapshots(&self) -> ! {
        panic!("{} has no snapshots", self.name())
    }

    /// The whole book in the flat form.
    fn flat(&self) -> Vec<u64> {
        let mut flat = Vec::new();
        self.dump(&mut flat);
        flat
    }

    /// One in so many of the queries is asked after each command, the next one after the next
    /// command: more than 1 for a side to which every question is a long way.
    fn one_in(&self) -> usize {
        1
    }
}
