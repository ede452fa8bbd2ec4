//! Module 1: terms. Knows nothing of the book.

use crate::money::OFFERED;
use crate::{test, Test};

#[derive(Clone, Copy, Debug, PartialEq, Eq)]
pub struct Terms {
    pub amount: i64,
    pub rate: u64,
    pub duration: u64,
}

/// The terms check has two parts: the ranges, and the amount against the invoice's.
pub fn terms_valid(terms: &Terms) -> Test {
    test(OFFERED.contains(&terms.amount), 3)?;
    test((1..=10_000).contains(&terms.rate), 3)?;
    test((86_400..=31_536_000).contains(&terms.duration), 3)
}

pub fn within_invoice(terms: &Terms, invoiced: i64) -> Test {
    test(terms.amount <= invoiced, 3)
}
