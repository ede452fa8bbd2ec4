//! The queries of document 01, module 6.

/// A query is three numbers across a language boundary: its number here and two arguments, of
/// which absent ones are 0.
///
/// | no. | query | numbers written |
/// |---|---|---|
/// | 1 | offers by invoice | ten for each offer |
/// | 2 | offers by lender | ten for each offer |
/// | 3 | offers by status code (unlisted gives 3) | ten for each offer |
/// | 4 | offers by invoice that are Pending | ten for each offer |
/// | 5 | all offers | ten for each offer |
/// | 6 | a page: offset, limit | ten for each offer |
/// | 7 | one offer (absent gives 4) | ten |
/// | 8 | its schedule | count, code, installment, first due, kind; nothing if there is none |
/// | 9 | its negotiation | deadline, then each round's party, amount, rate, duration, time |
/// | 10 | its negotiation's status: id, time | one |
/// | 11 | its installment due: id, time | its number and what is still owed on it, zeros if none is due |
/// | 12 | a lender's figures | offered, accepted, offers pending, offers repaid |
/// | 13 | a lender's active total | one |
/// | 14 | the number of offers | one |
/// | 15 | totals | offers, financed, repaid, fees |
/// | 16 | window | one |
/// | 17 | seats and threshold | two |
/// | 18 | whether it is paused | one |
#[derive(Clone, Copy, Debug, PartialEq, Eq)]
pub enum Query {
    ByInvoice(u64),
    ByLender(u64),
    ByStatus(u64),
    PendingByInvoice(u64),
    All,
    Page(u64, u64),
    Offer(u64),
    Schedule(u64),
    Negotiation(u64),
    Status(u64, u64),
    Due(u64, u64),
    Lender(u64),
    ActiveTotal(u64),
    Count,
    Totals,
    Window,
    Seats,
    Paused,
}

impl Query {
    pub fn numbers(self) -> [u64; 3] {
        match self {
            Query::ByInvoice(invoice) => [1, invoice, 0],
            Query::ByLender(lender) => [2, lender, 0],
            Query::ByStatus(code) => [3, code, 0],
            Query::PendingByInvoice(invoice) => [4, invoice, 0],
            Query::All => [5, 0, 0],
            Query::Page(offset, limit) => [6, offset, limit],
            Query::Offer(id) => [7, id, 0],
            Query::Schedule(id) => [8, id, 0],
            Query::Negotiation(id) => [9, id, 0],
            Query::Status(id, now) => [10, id, now],
            Query::Due(id, now) => [11, id, now],
            Query::Lender(id) => [12, id, 0],
            Query::ActiveTotal(id) => [13, id, 0],
            Query::Count => [14, 0, 0],
            Query::Totals => [15, 0, 0],
            Query::Window => [16, 0, 0],
            Query::Seats => [17, 0, 0],
            Query::Paused => [18, 0, 0],
        }
    }
}

/// The answer's number and how many numbers stand in the buffer. A refusal writes none and leaves
/// the buffer as it was; room past the answer is left as it was too.
#[derive(Clone, Copy, Debug, PartialEq, Eq)]
pub struct Reply {
    pub number: u64,
    pub written: usize,
}

impl Reply {
    pub fn refused(number: u64) -> Reply {
        Reply { number, written: 0 }
    }

    /// Writes the numbers, or answers 14 if the buffer is too short for all of them.
    pub fn write(numbers: &[u64], out: &mut [u64]) -> Reply {
        match out.get_mut(..numbers.len()) {
            Some(room) => room.copy_from_slice(numbers),
            None => return Reply::refused(14),
        }
        Reply { number: 0, written: numbers.len() }
    }
}
