//! The book as a snapshot, by the table of docs/SNAPSHOT.md: fields of one number each, in one order
//! that both ways share.

mod pass;
#[cfg(test)]
mod tests;

use side::{Account, Book, Invoice, Offer, Round, Schedule};

use crate::edition::{has_kinds, is_listed, keeps_terms, most_rounds, OF_OLD_SNAPSHOTS};
use crate::money::MOST_ROWS;
use crate::{sound, MALFORMED, SHORT, UNSOUND};
use pass::{Pass, Reader, Writer};

/// The tag of the first field.
const EDITION: u8 = 0x10;

/// Why bytes are no snapshot.
#[derive(Clone, Copy, Debug, PartialEq, Eq)]
pub enum Refusal {
    /// The tag of the first wrong field stands here.
    Malformed(usize),
    /// A number of rows or rounds is past its limit, whatever follows.
    TooMany,
    /// All fields are there, and the book is not sound.
    Unsound,
}

impl Refusal {
    /// Its number, and the offset that goes with 13.
    pub fn answer(self) -> (u64, u64) {
        match self {
            Refusal::Malformed(offset) => (MALFORMED, offset as u64),
            Refusal::TooMany | Refusal::Unsound => (UNSOUND, 0),
        }
    }
}

/// The bytes of a book; 15 where it is not sound.
pub fn write(book: &Book) -> Result<Vec<u8>, u64> {
    if !sound(book) {
        return Err(UNSOUND);
    }
    let mut writer = Writer::default();
    let edition = writer.number(EDITION, book.edition);
    let done = edition.and_then(|_| fields(&mut writer, &mut book.clone()));
    done.map(|()| writer.bytes).map_err(|refusal| refusal.answer().0)
}

/// The bytes of a book in a buffer of so many: 15, then 14.
pub fn write_within(book: &Book, room: usize) -> Result<Vec<u8>, u64> {
    write(book).and_then(|bytes| if bytes.len() <= room { Ok(bytes) } else { Err(SHORT) })
}

/// The book of these bytes, or a refusal's number and offset.
pub fn read(bytes: &[u8]) -> Result<Book, (u64, u64)> {
    examine(bytes).map_err(Refusal::answer)
}

/// The book of these bytes, or why there is none.
pub fn examine(bytes: &[u8]) -> Result<Book, Refusal> {
    let mut reader = Reader::of(bytes);
    let mut book = Book { edition: edition_of(&mut reader)?, ..Book::default() };
    fields(&mut reader, &mut book)?;
    let fits = reader.ended()?;
    if fits && sound(&book) {
        Ok(book)
    } else {
        Err(Refusal::Unsound)
    }
}

/// The edition that the first field says. Bytes that begin without it are from before there was one.
fn edition_of(reader: &mut Reader) -> Result<u64, Refusal> {
    match reader.number(EDITION, 0) {
        Ok(edition) if is_listed(edition) => Ok(edition),
        Ok(_) => Err(Refusal::Malformed(0)),
        Err(_) => Ok(OF_OLD_SNAPSHOTS),
    }
}

type Step = Result<(), Refusal>;

fn fields(pass: &mut impl Pass, book: &mut Book) -> Step {
    pass.wide(0x11, &mut book.window)?;
    pass.half(0x0D, &mut book.seats)?;
    pass.half(0x0E, &mut book.threshold)?;
    pass.flag(0x60, &mut book.paused)?;
    repayment(pass, book)?;
    pass.half(0x63, &mut book.totals.offers)?;
    pass.amount(0x64, &mut book.totals.financed)?;
    pass.amount(0x65, &mut book.totals.repaid)?;
    pass.amount(0x66, &mut book.totals.fees)?;
    let edition = book.edition;
    pass.rows(0x70, &mut book.accounts, MOST_ROWS)?;
    book.accounts.iter_mut().try_for_each(|row| account(pass, row))?;
    pass.rows(0x80, &mut book.invoices, MOST_ROWS)?;
    book.invoices.iter_mut().try_for_each(|row| invoice(pass, row))?;
    pass.rows(0x90, &mut book.offers, MOST_ROWS)?;
    book.offers.iter_mut().try_for_each(|row| offer(pass, row, edition))
}

/// The id is free while no account is set.
fn repayment(pass: &mut impl Pass, book: &mut Book) -> Step {
    let mut set = book.repayment.is_some();
    let mut id = book.repayment.unwrap_or(book.idle);
    pass.flag(0x61, &mut set)?;
    pass.wide(0x62, &mut id)?;
    (book.repayment, book.idle) = if set { (Some(id), 0) } else { (None, id) };
    Ok(())
}

fn account(pass: &mut impl Pass, row: &mut Account) -> Step {
    pass.wide(0x03, &mut row.id)?;
    pass.amount(0x71, &mut row.balance)?;
    pass.amount(0x72, &mut row.allowance)?;
    pass.amount(0x73, &mut row.offered)?;
    pass.amount(0x74, &mut row.accepted)?;
    pass.half(0x75, &mut row.pending)?;
    pass.half(0x76, &mut row.repaid)?;
    let mut listed = row.blacklisted == 1;
    pass.flag(0x77, &mut listed)?;
    row.blacklisted = listed.into();
    Ok(())
}

fn invoice(pass: &mut impl Pass, row: &mut Invoice) -> Step {
    pass.wide(0x03, &mut row.id)?;
    pass.wide(0x81, &mut row.originator)?;
    pass.amount(0x05, &mut row.amount)?;
    pass.half(0x82, &mut row.status)
}

fn offer(pass: &mut impl Pass, row: &mut Offer, edition: u64) -> Step {
    pass.wide(0x03, &mut row.id)?;
    pass.wide(0x04, &mut row.invoice)?;
    pass.wide(0x91, &mut row.lender)?;
    pass.amount(0x05, &mut row.amount)?;
    pass.half(0x06, &mut row.rate)?;
    pass.wide(0x07, &mut row.duration)?;
    pass.wide(0x08, &mut row.expires)?;
    pass.half(0x92, &mut row.status)?;
    pass.wide(0x93, &mut row.funded)?;
    pass.amount(0x94, &mut row.repaid)?;
    pass.wide(0x95, &mut row.deadline)?;
    pass.half(0x96, &mut row.outcome)?;
    pass.rows(0x97, &mut row.rounds, most_rounds(edition))?;
    row.rounds.iter_mut().try_for_each(|row| round(pass, row))?;
    schedule(pass, &mut row.schedule, edition)
}

fn round(pass: &mut impl Pass, row: &mut Round) -> Step {
    pass.half(0x98, &mut row.party)?;
    pass.amount(0x05, &mut row.amount)?;
    pass.half(0x06, &mut row.rate)?;
    pass.wide(0x07, &mut row.duration)?;
    pass.wide(0x01, &mut row.time)
}

/// Without a schedule all its numbers are 0.
fn schedule(pass: &mut impl Pass, held: &mut Option<Schedule>, edition: u64) -> Step {
    let mut row = held.unwrap_or_default();
    pass.half(0x0A, &mut row.count)?;
    pass.half(0x0B, &mut row.code)?;
    pass.amount(0x99, &mut row.installment)?;
    pass.wide(0x0C, &mut row.first)?;
    if keeps_terms(edition) {
        pass.amount(0x9A, &mut row.amount)?;
        pass.half(0x9B, &mut row.rate)?;
    }
    if has_kinds(edition) {
        pass.wide(0x14, &mut row.kind)?;
    }
    pass.require(row.count != 0 || row == Schedule::default());
    *held = (row.count != 0).then_some(row);
    Ok(())
}
