//! What passes between a side and its readers of snapshots.

/// A refused snapshot: 13 with the offset of the first wrong field's tag, or 15 with 0.
pub type Refused = (u64, u64);

/// Bytes to read as a snapshot.
#[derive(Clone, Debug)]
pub struct Reading {
    pub bytes: Vec<u8>,
    /// Whether the book that is present afterwards is asked for.
    pub shown: bool,
}

/// What reading gave, and the book that was asked for in the flat form.
#[derive(Clone, Debug, PartialEq, Eq)]
pub struct Restored {
    pub answer: Result<(), Refused>,
    pub book: Option<Vec<u64>>,
}
