//! The book's rows, in document 01's numbers.

#[derive(Clone, Debug, Default, PartialEq, Eq)]
pub struct Book {
    pub edition: u64,
    pub paused: bool,
    pub window: u64,
    pub seats: u64,
    pub threshold: u64,
    /// "No repayment account" is an answer of its own: every id is an ordinary one.
    pub repayment: Option<u64>,
    /// The id that stands in its place while none is set, else 0. It counts for nothing, but the flat
    /// form and a snapshot have it.
    pub idle: u64,
    pub totals: Totals,
    pub accounts: Vec<Account>,
    pub invoices: Vec<Invoice>,
    pub offers: Vec<Offer>,
}

#[derive(Clone, Copy, Debug, Default, PartialEq, Eq)]
pub struct Totals {
    pub offers: u64,
    pub financed: i64,
    pub repaid: i64,
    pub fees: i64,
}

#[derive(Clone, Copy, Debug, Default, PartialEq, Eq)]
pub struct Account {
    pub id: u64,
    pub balance: i64,
    pub allowance: i64,
    pub offered: i64,
    pub accepted: i64,
    pub pending: u64,
    pub repaid: u64,
    pub blacklisted: u64,
}

#[derive(Clone, Copy, Debug, Default, PartialEq, Eq)]
pub struct Invoice {
    pub id: u64,
    pub originator: u64,
    pub amount: i64,
    pub status: u64,
}

/// An offer with its negotiation and its schedule.
#[derive(Clone, Debug, Default, PartialEq, Eq)]
pub struct Offer {
    pub id: u64,
    pub invoice: u64,
    pub lender: u64,
    pub amount: i64,
    pub rate: u64,
    pub duration: u64,
    pub expires: u64,
    pub status: u64,
    pub funded: u64,
    pub repaid: i64,
    /// 0 where none is stored, else 2 to 4.
    pub outcome: u64,
    pub deadline: u64,
    pub rounds: Vec<Round>,
    pub schedule: Option<Schedule>,
}

/// Party 0 is the lender, 1 the originator.
#[derive(Clone, Copy, Debug, Default, PartialEq, Eq)]
pub struct Round {
    pub party: u64,
    pub amount: i64,
    pub rate: u64,
    pub duration: u64,
    pub time: u64,
}

#[derive(Clone, Copy, Debug, Default, PartialEq, Eq)]
pub struct Schedule {
    pub count: u64,
    pub code: u64,
    pub installment: i64,
    pub first: u64,
    /// The offer's terms when the schedule was made, where the edition keeps them; else 0.
    pub amount: i64,
    pub rate: u64,
    /// 0 flat, 1 falling, where the edition has kinds; else 0.
    pub kind: u64,
}

impl Book {
    /// Document 01, so edition 1: no rows, seat 0 alone with threshold 1, no repayment account, not
    /// paused.
    pub fn fresh() -> Book {
        Book { edition: 1, window: 604_800, seats: 1, threshold: 1, ..Book::default() }
    }
}

impl Offer {
    /// The ten numbers of the Rust's field order without currency.
    pub fn ten(&self) -> [u64; 10] {
        [
            self.id,
            self.invoice,
            self.lender,
            self.amount as u64,
            self.rate,
            self.duration,
            self.expires,
            self.status,
            self.funded,
            self.repaid as u64,
        ]
    }
}
