//! Module 6: queries.

use side::{Book, Offer, Query, Schedule};

use crate::edition::keeps_terms;
use crate::negotiation::{status, PENDING};
use crate::schedule::{
    due_by_quotient, due_by_sums, due_on, installments, principal, Due, FALLING,
};
use crate::{test, Slip, Test};

pub fn answer(book: &Book, query: Query, slip: Option<Slip>) -> Test<Vec<u64>> {
    let one = |number: u64| Ok(vec![number]);
    let found = |id: u64| book.offers.iter().find(|offer| offer.id == id);
    match query {
        Query::ByInvoice(invoice) => list(book, |offer| offer.invoice == invoice),
        Query::ByLender(lender) => list(book, |offer| offer.lender == lender),
        Query::ByStatus(code) => {
            test(code <= 5, 3)?;
            list(book, |offer| offer.status == code)
        }
        Query::PendingByInvoice(invoice) => {
            list(book, |offer| offer.invoice == invoice && offer.status == PENDING)
        }
        Query::All => list(book, |_| true),
        Query::Page(offset, limit) => Ok(page(book, offset, limit)),
        Query::Offer(id) => found(id).map(|offer| offer.ten().into()).ok_or(4),
        Query::Schedule(id) => Ok(found(id).map_or(Vec::new(), schedule)),
        Query::Negotiation(id) => Ok(found(id).map_or(vec![0], negotiation)),
        Query::Status(id, now) => one(found(id).map_or(0, |offer| status(offer, now))),
        Query::Due(id, now) => {
            let keeps = keeps_terms(book.edition);
            Ok(found(id).map_or([0; 2], |offer| due_of(offer, now, keeps, slip)).into())
        }
        Query::Lender(id) => {
            let row = book.accounts.iter().find(|account| account.id == id);
            Ok(row.map_or(vec![0; 4], |row| {
                vec![row.offered as u64, row.accepted as u64, row.pending, row.repaid]
            }))
        }
        Query::ActiveTotal(id) => one(active_total(book, id, slip)),
        Query::Count => one(book.offers.len() as u64),
        Query::Totals => {
            let totals = &book.totals;
            let money = [totals.financed, totals.repaid, totals.fees].map(|sum| sum as u64);
            Ok([[totals.offers].as_slice(), &money].concat())
        }
        Query::Window => one(book.window),
        Query::Seats => Ok(vec![book.seats, book.threshold]),
        Query::Paused => one(book.paused.into()),
    }
}

fn list(book: &Book, wanted: impl Fn(&Offer) -> bool) -> Test<Vec<u64>> {
    Ok(book.offers.iter().filter(|offer| wanted(offer)).flat_map(Offer::ten).collect())
}

fn page(book: &Book, offset: u64, limit: u64) -> Vec<u64> {
    let clamp = |number: u64| number.min(book.offers.len() as u64) as usize;
    book.offers.iter().skip(clamp(offset)).take(clamp(limit)).flat_map(Offer::ten).collect()
}

fn schedule(offer: &Offer) -> Vec<u64> {
    let row = offer.schedule.iter();
    row.flat_map(|row| [row.count, row.code, row.installment as u64, row.first, row.kind]).collect()
}

fn negotiation(offer: &Offer) -> Vec<u64> {
    let mut numbers = vec![offer.deadline];
    for round in &offer.rounds {
        let amount = round.amount as u64;
        numbers.extend([round.party, amount, round.rate, round.duration, round.time]);
    }
    numbers
}

fn due_of(offer: &Offer, now: u64, keeps: bool, slip: Option<Slip>) -> Due {
    let (repaid, defaulted) = (4, 5);
    let Some(row) = offer.schedule else { return [0; 2] };
    if [repaid, defaulted].contains(&offer.status) {
        return [0; 2];
    }
    match slip {
        Some(Slip::PresentTerms) if keeps => {
            let row = Schedule { amount: offer.amount, rate: offer.rate, ..row };
            due_by_sums(&row, now, offer.repaid)
        }
        Some(Slip::RestKept | Slip::InterestStays) if row.kind == FALLING => {
            due_on(&row, now, offer.repaid, &slipped(&row, slip))
        }
        _ if keeps && slip != Some(Slip::CentsLeft) => due_by_sums(&row, now, offer.repaid),
        _ => due_by_quotient(&row, now, offer.repaid),
    }
}

/// The installments of a falling schedule as two of the slips have them.
fn slipped(row: &Schedule, slip: Option<Slip>) -> Vec<i64> {
    let (mut list, usual) = (installments(row), principal(row.amount, row.count));
    let others = row.count as usize - 1;
    let rest = row.amount - others as i64 * usual;
    if slip == Some(Slip::RestKept) {
        list[others] -= rest - usual;
        return list;
    }
    [vec![row.installment; others], vec![row.installment - usual + rest]].concat()
}

fn active_total(book: &Book, lender: u64, slip: Option<Slip>) -> u64 {
    let (accepted, financed, defaulted) = (1, 3, 5);
    let slipped = slip == Some(Slip::DefaultedActive);
    let counts =
        |status: u64| status == accepted || status == financed || (slipped && status == defaulted);
    let active = book.offers.iter().filter(|row| row.lender == lender && counts(row.status));
    active.map(|offer| offer.amount as u64).sum()
}
