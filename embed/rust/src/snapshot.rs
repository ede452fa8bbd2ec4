//! Snapshots: a whole book in bytes.

use crate::{calls, told, with_room, Journal, Refusal, LISTING_ROOM};

/// The bytes of a snapshot (docs/SNAPSHOT.md). `Snapshot::from` takes any bytes; malformed ones are refused by the offset of the
/// first wrong field, those of no sound book with 15.
///
/// It names the edition of its book, and so must the journals that go on from it: one of another edition is refused with 13. Bytes
/// that name none are from before there was a field for it, and are read as edition 3.
#[derive(Clone, Debug, PartialEq, Eq)]
pub struct Snapshot(Vec<u8>);

/// A field's bytes, and the most fields: edition, settings, totals and three counts, and 64 accounts, invoices and offers with 16
/// rounds each.
const FIELD: usize = 11;
const MOST_FIELDS: usize = 14 + 64 * (8 + 4 + 19 + 16 * 5);

impl From<Vec<u8>> for Snapshot {
    fn from(bytes: Vec<u8>) -> Snapshot {
        Snapshot(bytes)
    }
}

impl Snapshot {
    pub(crate) fn written(write: impl Fn(&mut [u8]) -> Result<usize, Refusal>) -> Result<Snapshot, Refusal> {
        let mut out = vec![0; FIELD * MOST_FIELDS];
        let size = write(&mut out)?;
        out.truncate(size);
        Ok(Snapshot(out))
    }

    pub fn bytes(&self) -> &[u8] {
        &self.0
    }

    /// The book after a journal that goes on from this one. A journal without commands gives the same bytes again.
    pub fn then(&self, journal: &Journal) -> Result<Snapshot, Refusal> {
        Snapshot::written(|out| calls::snapshot_from(&self.0, journal.bytes(), out))
    }

    /// What a replay of the journal from this book prints: an answer for each command, the accounts, the totals. A bad header,
    /// another edition's, or a malformed record is said there.
    pub fn listing(&self, journal: &Journal) -> Result<String, Refusal> {
        let mut out = vec![0; journal.bytes().len() + LISTING_ROOM];
        let size = calls::listing_from(&self.0, journal.bytes(), &mut out)?;
        Ok(told(out, size))
    }

    /// The answers to questions about the book after the journal, one a line, as of `Journal::ask`.
    pub fn ask(&self, journal: &Journal, questions: &str) -> Result<String, Refusal> {
        with_room(|out| calls::ask_from(&self.0, journal.bytes(), questions, out))
    }
}
