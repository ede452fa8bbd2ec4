//! Faults that make a book unsound. A number stays within 32 bits where a book has no more room for
//! it, so that every side can hold it.

use plain::edition::{has_kinds, keeps_terms, most_rounds};
use plain::schedule::{first_installment, FALLING};
use side::{Account, Book, Invoice, Offer, Round, Schedule};

/// Plants the fault, where the book has a row for it.
pub type Fault = fn(&mut Book) -> Option<()>;

fn account(book: &mut Book, change: fn(&mut Account)) -> Option<()> {
    book.accounts.last_mut().map(change)
}

fn invoice(book: &mut Book, change: fn(&mut Invoice)) -> Option<()> {
    book.invoices.last_mut().map(change)
}

fn offer(book: &mut Book, change: fn(&mut Offer)) -> Option<()> {
    book.offers.last_mut().map(change)
}

fn round(book: &mut Book, change: fn(&mut Round)) -> Option<()> {
    book.offers.iter_mut().find_map(|row| row.rounds.last_mut()).map(change)
}

fn schedule(book: &mut Book, change: fn(&mut Schedule)) -> Option<()> {
    book.offers.iter_mut().find_map(|row| row.schedule.as_mut()).map(change)
}

/// Of a schedule that keeps terms.
fn kept(book: &mut Book, change: fn(&mut Schedule)) -> Option<()> {
    keeps_terms(book.edition).then(|| schedule(book, change))?
}

/// Of a schedule that keeps none.
fn bare(book: &mut Book, change: fn(&mut Schedule)) -> Option<()> {
    (!keeps_terms(book.edition)).then(|| schedule(book, change))?
}

/// Other terms are kept, and their installment is stored.
fn refit(row: &mut Schedule, amount: i64, rate: u64) {
    (row.amount, row.rate) = (amount, rate);
    row.installment = first_installment(row.kind, amount, row.count, rate);
}

/// Of a schedule that becomes a falling one with its own installment.
fn falling(book: &mut Book, change: fn(&mut Schedule)) -> Option<()> {
    let row = book.offers.iter_mut().find_map(|row| row.schedule.as_mut());
    let row = row.filter(|_| has_kinds(book.edition))?;
    row.kind = FALLING;
    refit(row, row.amount, row.rate);
    change(row);
    Some(())
}

/// The kept amount is one less than there are installments, and this is the one that is stored.
fn too_little(row: &mut Schedule, installment: i64) {
    (row.amount, row.installment) = (row.count as i64 - 1, installment);
}

/// 5 at 7500 in three, of which a flat schedule's first is 1 and a falling one's 2.
fn parted(row: &mut Schedule, installment: i64) {
    (row.count, row.amount, row.rate, row.installment) = (3, 5, 7_500, installment);
}

fn set(book: &mut Book, change: fn(&mut Book)) -> Option<()> {
    change(book);
    Some(())
}

/// Two rows change places.
fn swap<T>(rows: &mut [T]) -> Option<()> {
    let last = rows.len().checked_sub(2)?;
    rows.swap(last, last + 1);
    Some(())
}

/// The last row stands there twice.
fn double<T: Clone>(rows: &mut Vec<T>) -> Option<()> {
    rows.push(rows.last()?.clone());
    Some(())
}

/// One row more than a table has room for; the ids ascend.
fn fill<T>(rows: &mut Vec<T>, row: fn(u64) -> T) -> Option<()> {
    *rows = (0..65).map(row).collect();
    Some(())
}

fn good_offer(id: u64) -> Offer {
    Offer { id, amount: 1, rate: 1, duration: 86_400, ..Offer::default() }
}

/// The last offer has so many good rounds.
fn rounds(book: &mut Book, rounds: usize) -> Option<()> {
    let round = Round { amount: 1, rate: 1, duration: 86_400, ..Round::default() };
    book.offers.last_mut()?.rounds = vec![round; rounds];
    Some(())
}

const TOO_MUCH: i64 = 4_000_000_000_000_001;

/// Each with what is wrong.
#[rustfmt::skip]
pub const FAULTS: [(&str, Fault); 65] = [
    ("edition 0", |book| set(book, |book| book.edition = 0)),
    ("the edition after the latest", |book| set(book, |book| book.edition = journal::LATEST + 1)),
    ("window 3599", |book| set(book, |book| book.window = 3_599)),
    ("window 2592001", |book| set(book, |book| book.window = 2_592_001)),
    ("no seats", |book| set(book, |book| book.seats = 0)),
    ("threshold 0", |book| set(book, |book| book.threshold = 0)),
    ("threshold 33", |book| set(book, |book| book.threshold = 33)),
    ("offers made", |book| set(book, |book| book.totals.offers = 1_000_001)),
    ("financed below 0", |book| set(book, |book| book.totals.financed = -1)),
    ("repaid too much", |book| set(book, |book| book.totals.repaid = TOO_MUCH)),
    ("fees below 0", |book| set(book, |book| book.totals.fees = i64::MIN)),
    ("accounts out of order", |book| swap(&mut book.accounts)),
    ("an account twice", |book| double(&mut book.accounts)),
    ("65 accounts", |book| fill(&mut book.accounts, |id| Account { id, ..Account::default() })),
    ("balance below 0", |book| account(book, |row| row.balance = -1)),
    ("allowance too much", |book| account(book, |row| row.allowance = TOO_MUCH)),
    ("offered below 0", |book| account(book, |row| row.offered = -1)),
    ("accepted too much", |book| account(book, |row| row.accepted = TOO_MUCH)),
    ("offers pending", |book| account(book, |row| row.pending = 1_000_001)),
    ("offers repaid", |book| account(book, |row| row.repaid = 1_000_001)),
    ("invoices out of order", |book| swap(&mut book.invoices)),
    ("an invoice twice", |book| double(&mut book.invoices)),
    ("65 invoices", |book| fill(&mut book.invoices, |id| Invoice { id, amount: 1, ..Invoice::default() })),
    ("invoice of 0", |book| invoice(book, |row| row.amount = 0)),
    ("invoice of too much", |book| invoice(book, |row| row.amount = 1_000_000_000_001)),
    ("invoice status 3", |book| invoice(book, |row| row.status = 3)),
    ("offers out of order", |book| swap(&mut book.offers)),
    ("an offer twice", |book| double(&mut book.offers)),
    ("65 offers", |book| fill(&mut book.offers, good_offer)),
    ("offer of 0", |book| offer(book, |row| row.amount = 0)),
    ("rate 0", |book| offer(book, |row| row.rate = 0)),
    ("duration 86399", |book| offer(book, |row| row.duration = 86_399)),
    ("offer status 6", |book| offer(book, |row| row.status = 6)),
    ("amount repaid below 0", |book| offer(book, |row| row.repaid = -1)),
    ("outcome 1", |book| offer(book, |row| row.outcome = 1)),
    ("outcome 5", |book| offer(book, |row| row.outcome = 5)),
    ("a round more than its edition has", |book| rounds(book, most_rounds(book.edition) + 1)),
    ("17 rounds", |book| rounds(book, 17)),
    ("party 2", |book| round(book, |row| row.party = 2)),
    ("a round's amount", |book| round(book, |row| row.amount = 1_000_000_000_001)),
    ("a round's rate", |book| round(book, |row| row.rate = 10_001)),
    ("a round's duration", |book| round(book, |row| row.duration = 31_536_001)),
    ("1201 installments", |book| schedule(book, |row| row.count = 1_201)),
    ("period 0", |book| schedule(book, |row| row.code = 0)),
    ("period 4", |book| schedule(book, |row| row.code = 4)),
    ("installment 0", |book| schedule(book, |row| row.installment = 0)),
    ("installment too much", |book| schedule(book, |row| row.installment = 2_000_000_000_001)),
    ("an installment one above that of the kept terms", |book| kept(book, |row| row.installment += 1)),
    ("an installment one below that of the kept terms", |book| kept(book, |row| row.installment -= 1)),
    ("a kept amount of another installment", |book| kept(book, |row| row.amount += row.count as i64)),
    ("a kept amount of 0", |book| kept(book, |row| row.amount = 0)),
    ("a kept amount below 0", |book| kept(book, |row| row.amount = -row.amount)),
    ("a kept amount of too much", |book| kept(book, |row| refit(row, 1_000_000_000_001, 1))),
    ("a kept rate of 0", |book| kept(book, |row| refit(row, row.amount, 0))),
    ("a kept rate of 10001", |book| kept(book, |row| refit(row, row.amount, 10_001))),
    ("a kept amount before edition 5", |book| bare(book, |row| row.amount = 1)),
    ("a kept rate before edition 5", |book| bare(book, |row| row.rate = 1)),
    ("kind 2", |book| schedule(book, |row| row.kind = 2)),
    ("kind 1 before edition 5", |book| bare(book, |row| row.kind = 1)),
    ("a falling installment one above its own", |book| falling(book, |row| row.installment += 1)),
    ("a falling installment one below its own", |book| falling(book, |row| row.installment -= 1)),
    ("a flat installment in a falling schedule", |book| falling(book, |row| parted(row, 1))),
    ("a falling installment in a flat schedule", |book| falling(book, |row| { parted(row, 2); row.kind = 0 })),
    ("falling installments of less than 1", |book| falling(book, |row| too_little(row, 0))),
    ("less than 1 a falling installment, and 1 stored", |book| falling(book, |row| too_little(row, 1))),
];
