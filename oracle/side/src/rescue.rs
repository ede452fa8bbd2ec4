//! What passes between a side and its rescue of damaged journals.

/// The room that is lent for what a rescue gives.
#[derive(Clone, Copy, Debug, PartialEq, Eq)]
pub struct Room {
    /// So many bytes for the clean journal.
    pub output: usize,
    /// So many offsets of dropped records.
    pub report: usize,
}

impl Room {
    /// The most that every side can lend; no journal that is rescued is longer than its output.
    pub const WIDEST: Room = Room { output: 65_536, report: 8_192 };
}

/// What is saved of a damaged journal.
#[derive(Clone, Debug, Default, PartialEq, Eq)]
pub struct Rescued {
    /// The header and the kept records.
    pub clean: Vec<u8>,
    /// The offset of each dropped record in the damaged journal.
    pub dropped: Vec<u64>,
    /// The number of bytes at the end that were not read.
    pub left: u64,
}

/// One implementation of the rescue. It needs no book.
pub trait Rescue {
    /// Rescues a journal of at most `Room::WIDEST.output` bytes: 13 where its header is bad, then 14
    /// where the output is shorter than the journal or the report has no room for every offset.
    fn rescue(&mut self, journal: &[u8], room: Room) -> Result<Rescued, u64>;
}
