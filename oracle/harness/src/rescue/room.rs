//! The room that is lent for a rescue: ample, just enough, and a little less.

use side::Room;

use crate::chance::Chance;

#[derive(Clone, Copy, Debug)]
pub enum Lent {
    Widest,
    Enough,
    /// One byte of the output less than enough.
    OutputShort,
    /// One number of the report less than enough, where there is one to report.
    ReportShort,
    Nothing,
}

impl Lent {
    pub const ALL: [Lent; 5] =
        [Lent::Widest, Lent::Enough, Lent::OutputShort, Lent::ReportShort, Lent::Nothing];

    /// Mostly room enough.
    pub fn some(chance: &mut Chance) -> Lent {
        Lent::ALL[chance.weighted(&[8, 6, 2, 3, 1])]
    }

    /// For a journal of so many bytes with so many records to drop.
    pub fn room(self, length: usize, dropped: usize) -> Room {
        let report = dropped.min(Room::WIDEST.report);
        let enough = Room { output: length, report };
        match self {
            Lent::Widest => Room::WIDEST,
            Lent::Enough => enough,
            Lent::OutputShort => Room { output: length.saturating_sub(1), ..enough },
            Lent::ReportShort => Room { report: report.saturating_sub(1), ..enough },
            Lent::Nothing => Room { output: 0, report: 0 },
        }
    }
}
