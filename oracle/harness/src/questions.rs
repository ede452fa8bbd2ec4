//! Which queries are asked after a command. They follow from the book and the command alone, so
//! that a journal that is cut down is asked the same.

use plain::edition::keeps_terms;
use plain::schedule::paid_by_sums;
use side::{Book, Offer, Query, Schedule};

/// Rows of each table about which everything is asked; of a longer table a few are taken in turn.
const ASKED: usize = 6;

/// An id that no row has.
const ABSENT: u64 = 0x00AB_5E17;

pub fn questions(book: &Book, now: u64, turn: usize, out: &mut Vec<Query>) {
    out.clear();
    for offer in taken(&book.offers, turn) {
        about_offer(offer, book.edition, now, out);
    }
    for account in taken(&book.accounts, turn) {
        about_lender(account.id, out);
    }
    for invoice in taken(&book.invoices, turn) {
        out.extend([Query::ByInvoice(invoice.id), Query::PendingByInvoice(invoice.id)]);
    }
    about_absent(now, out);
    out.extend((0..=6).map(Query::ByStatus));
    let rows = book.offers.len() as u64;
    let turn = turn as u64;
    out.extend([
        Query::ByStatus(u64::MAX),
        Query::All,
        Query::Page(0, 0),
        Query::Page(turn % (rows + 1), turn % 5),
        Query::Page(1, u64::MAX),
        Query::Page(u64::MAX, u64::MAX),
        Query::Page(1 << 32, 1),
        Query::Count,
        Query::Totals,
        Query::Window,
        Query::Seats,
        Query::Paused,
    ]);
}

fn taken<T>(rows: &[T], turn: usize) -> impl Iterator<Item = &T> {
    let first = if rows.len() > ASKED { turn % rows.len() } else { 0 };
    rows.iter().cycle().skip(first).take(rows.len().min(ASKED))
}

fn about_lender(id: u64, out: &mut Vec<Query>) {
    out.extend([Query::Lender(id), Query::ActiveTotal(id), Query::ByLender(id)]);
}

fn about_absent(now: u64, out: &mut Vec<Query>) {
    out.extend([Query::Offer(ABSENT), Query::Schedule(ABSENT), Query::Negotiation(ABSENT)]);
    out.extend([Query::Status(ABSENT, now), Query::Due(ABSENT, now), Query::ByInvoice(ABSENT)]);
    about_lender(ABSENT, out);
}

/// How many installments are paid: by the sums, or by the quotient in an edition before them.
pub fn paid(schedule: &Schedule, repaid: i64, edition: u64) -> u64 {
    if keeps_terms(edition) {
        paid_by_sums(schedule, repaid)
    } else {
        (repaid / schedule.installment) as u64
    }
}

fn about_offer(offer: &Offer, edition: u64, now: u64, out: &mut Vec<Query>) {
    let id = offer.id;
    out.extend([Query::Offer(id), Query::Schedule(id), Query::Negotiation(id)]);
    let deadline = offer.deadline;
    for time in [now, 0, deadline, deadline.saturating_add(1), u64::MAX] {
        out.push(Query::Status(id, time));
    }
    out.extend([Query::Due(id, now), Query::Due(id, u64::MAX)]);
    let Some(schedule) = &offer.schedule else { return };
    let period = [604_800, 1_209_600, 2_592_000][schedule.code as usize - 1];
    let paid = paid(schedule, offer.repaid, edition);
    let after =
        |periods: u64| schedule.first.saturating_add(period.min(u64::MAX / 2_000) * periods);
    for periods in [0, 1, paid.min(1_200), schedule.count - 1, schedule.count] {
        let time = after(periods);
        out.extend([Query::Due(id, time.saturating_sub(1)), Query::Due(id, time)]);
    }
}
