//! Lookups in words, and their answers.

use crate::Refusal;

/// A lookup: one row, one figure or one setting of the book.
#[derive(Clone, Copy, Debug, PartialEq, Eq)]
pub enum Question {
    /// Ten values, in the order of the fields of `Offer`, or 4.
    Offer(u64),
    /// Balance, allowance, offered total, accepted total.
    Account(u64),
    /// In the order of the fields of `Lender`.
    Lender(u64),
    /// How many installments an offer has, the code of their period, the amount of the first, when it is due, their kind; or no
    /// values.
    Schedule(u64),
    /// When an offer's negotiation ends.
    Deadline(u64),
    NegotiationStatus { offer: u64, now: u64 },
    /// The number of the installment that is due and the sum still owed on it; 0 and 0 where none is.
    Due { offer: u64, now: u64 },
    Count,
    Window,
    Seats,
    Threshold,
    Paused,
    /// In the order of the fields of `Totals`.
    Totals,
}

impl Question {
    pub(crate) fn words(self) -> [u64; 3] {
        match self {
            Question::Offer(id) => [1, id, 0],
            Question::Account(id) => [2, id, 0],
            Question::Lender(id) => [3, id, 0],
            Question::Schedule(offer) => [4, offer, 0],
            Question::Deadline(offer) => [5, offer, 0],
            Question::NegotiationStatus { offer, now } => [6, offer, now],
            Question::Due { offer, now } => [7, offer, now],
            Question::Count => [8, 0, 0],
            Question::Window => [9, 0, 0],
            Question::Seats => [10, 0, 0],
            Question::Threshold => [11, 0, 0],
            Question::Paused => [12, 0, 0],
            Question::Totals => [13, 0, 0],
        }
    }
}

/// The answer to a lookup: 0 or the number of a refusal, how many values, and ten places for them.
#[derive(Clone, Copy, Debug, PartialEq, Eq)]
pub struct Answer(pub(crate) [u64; 12]);

impl Answer {
    /// The values, in the order of `Journal::ask`; amounts are in two's complement.
    pub fn values(&self) -> Result<&[u64], Refusal> {
        match self.0[0] {
            0 => Ok(&self.0[2..][..self.0[1] as usize]),
            number => Err(Refusal::Number(number)),
        }
    }
}
