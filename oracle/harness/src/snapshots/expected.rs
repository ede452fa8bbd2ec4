//! Bytes to read as snapshots, and what the plain reader makes of each.

use plain::edition::OF_OLD_SNAPSHOTS;
use plain::snapshot::{examine, write, Refusal};
use side::{Book, Reading, Restored, Side};

use super::without_edition;

/// After one refusal in so many the present book is looked at: it stays as it was.
const STAYS_IN: usize = 16;

/// What is to be read on the other side, and what it owes.
#[derive(Default)]
pub struct Expected {
    readings: Vec<Reading>,
    restored: Vec<Restored>,
    /// The present book in the flat form, once one was read.
    present: Option<Vec<u64>>,
    refused: usize,
}

impl Expected {
    pub fn len(&self) -> usize {
        self.readings.len()
    }

    /// Reads bytes with the plain reader. The book of accepted ones is written as the very bytes, or
    /// as the edition and these bytes where they are without it.
    pub fn take(&mut self, bytes: Vec<u8>) -> Result<Result<Book, Refusal>, String> {
        let read = examine(&bytes);
        let shown = match &read {
            Ok(book) => {
                if !gives(book, &bytes) {
                    return Err(format!("accepted, but written otherwise: {}", hex(&bytes)));
                }
                let mut flat = Vec::new();
                book.flat(&mut flat);
                self.present = Some(flat);
                true
            }
            Err(_) => {
                self.refused += 1;
                self.refused % STAYS_IN == 0
            }
        };
        let book = self.present.clone().filter(|_| shown);
        let answer = read.as_ref().map(drop).map_err(|refusal| refusal.answer());
        self.readings.push(Reading { bytes, shown: book.is_some() });
        self.restored.push(Restored { answer, book });
        Ok(read)
    }

    /// Reads all of them on the other side; `Err` says how it differs.
    pub fn compare(&mut self, other: &mut dyn Side) -> Result<(), String> {
        let readings = std::mem::take(&mut self.readings);
        let restored = std::mem::take(&mut self.restored);
        let others = other.restore_each(&readings);
        let differs = (0..readings.len()).find(|index| restored[*index] != others[*index]);
        differs.map_or(Ok(()), |index| {
            let (one, two) = (&restored[index], &others[index]);
            let (bytes, name) = (hex(&readings[index].bytes), other.name());
            let read = "a snapshot is read differently";
            Err(format!("{read}: {bytes}\nthe plain model: {one:?}\n{name}: {two:?}"))
        })
    }
}

/// Whether writing the book gives these bytes: with its edition, or what follows that.
fn gives(book: &Book, bytes: &[u8]) -> bool {
    write(book).is_ok_and(|written| {
        let old = book.edition == OF_OLD_SNAPSHOTS && without_edition(&written) == bytes;
        old || written == bytes
    })
}

fn hex(bytes: &[u8]) -> String {
    bytes.iter().map(|byte| format!("{byte:02x}")).collect()
}
