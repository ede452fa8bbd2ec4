//! What an edition has. Nothing else asks for its number.

use side::Book;

/// The edition of a snapshot's book where no field says it: those from before there was one.
pub const OF_OLD_SNAPSHOTS: u64 = 3;

/// Whether there is such an edition.
pub fn is_listed(edition: u64) -> bool {
    (1..=journal::LATEST).contains(&edition)
}

/// Whether amend and counter hold the amount to the invoice's, as create does.
pub fn holds_amount(edition: u64) -> bool {
    edition >= 2
}

/// The window of a fresh book, in seconds.
pub fn fresh_window(edition: u64) -> u64 {
    if edition >= 3 {
        259_200
    } else {
        604_800
    }
}

/// The number of rounds that an offer has at most.
pub fn most_rounds(edition: u64) -> usize {
    if edition >= 4 {
        16
    } else {
        12
    }
}

/// Whether a schedule keeps the offer's terms of when it was made, by which its last installment
/// carries what the others leave.
pub fn keeps_terms(edition: u64) -> bool {
    edition >= 5
}

/// Whether there are kinds of schedules beside the flat one.
pub fn has_kinds(edition: u64) -> bool {
    edition >= 5
}

/// A fresh book.
pub fn fresh(edition: u64) -> Book {
    Book { edition, window: fresh_window(edition), ..Book::fresh() }
}
