//! The functions of the archive. Each asks nothing of its caller but slices, which Rust's are.

use crate::{Offers, Refusal};

mod raw {
    extern "C" {
        pub fn solgaverna_listing(journal: *const u8, len: usize, out: *mut u8, room: usize) -> i64;
        pub fn solgaverna_journal(text: *const u8, len: usize, out: *mut u8, room: usize) -> i64;
        pub fn solgaverna_text(journal: *const u8, len: usize, out: *mut u8, room: usize) -> i64;
        pub fn solgaverna_faulty_line(text: *const u8, len: usize) -> u64;
        pub fn solgaverna_offers(
            journal: *const u8,
            len: usize,
            list: u64,
            a: u64,
            b: u64,
            out: *mut u64,
            room: usize,
        ) -> i64;
        pub fn solgaverna_lender(
            journal: *const u8,
            len: usize,
            account: u64,
            out: *mut u64,
            room: usize,
        ) -> i64;
        pub fn solgaverna_totals(journal: *const u8, len: usize, out: *mut u64, room: usize) -> i64;
        pub fn solgaverna_ask(
            journal: *const u8,
            len: usize,
            questions: *const u8,
            asked: usize,
            out: *mut u8,
            room: usize,
        ) -> i64;
        pub fn solgaverna_faulty_question(questions: *const u8, len: usize) -> u64;
        pub fn solgaverna_answers(
            journal: *const u8,
            len: usize,
            questions: *const u64,
            asked: usize,
            out: *mut u64,
            room: usize,
        ) -> i64;
        pub fn solgaverna_snapshot(journal: *const u8, len: usize, out: *mut u8, room: usize) -> i64;
        pub fn solgaverna_snapshot_from(
            from: *const u8,
            held: usize,
            journal: *const u8,
            len: usize,
            out: *mut u8,
            room: usize,
        ) -> i64;
        pub fn solgaverna_listing_from(
            from: *const u8,
            held: usize,
            journal: *const u8,
            len: usize,
            out: *mut u8,
            room: usize,
        ) -> i64;
        pub fn solgaverna_ask_from(
            from: *const u8,
            held: usize,
            journal: *const u8,
            len: usize,
            questions: *const u8,
            asked: usize,
            out: *mut u8,
            room: usize,
        ) -> i64;
        pub fn solgaverna_faulty_snapshot(from: *const u8, held: usize) -> u64;
    }
}

/// At least 0 is a count; below 0 is minus the number of a refusal.
fn count(answer: i64) -> Result<usize, Refusal> {
    usize::try_from(answer).map_err(|_| Refusal::Number(answer.unsigned_abs()))
}

pub fn listing(journal: &[u8], out: &mut [u8]) -> Result<usize, Refusal> {
    let (from, to) = (journal.as_ptr(), out.as_mut_ptr());
    count(unsafe { raw::solgaverna_listing(from, journal.len(), to, out.len()) })
}

pub fn journal(text: &str, out: &mut [u8]) -> Result<usize, Refusal> {
    let (from, to) = (text.as_ptr(), out.as_mut_ptr());
    let size = count(unsafe { raw::solgaverna_journal(from, text.len(), to, out.len()) });
    match size {
        Err(Refusal::Number(13)) => {
            Err(Refusal::Line(unsafe { raw::solgaverna_faulty_line(from, text.len()) }))
        }
        size => size,
    }
}

pub fn text(journal: &[u8], out: &mut [u8]) -> Result<usize, Refusal> {
    let (from, to) = (journal.as_ptr(), out.as_mut_ptr());
    count(unsafe { raw::solgaverna_text(from, journal.len(), to, out.len()) })
}

pub fn offers(journal: &[u8], which: Offers, out: &mut [u64]) -> Result<usize, Refusal> {
    let (list, a, b) = match which {
        Offers::ByInvoice(invoice) => (1, invoice, 0),
        Offers::ByLender(account) => (2, account, 0),
        Offers::ByStatus(status) => (3, status, 0),
        Offers::PendingByInvoice(invoice) => (4, invoice, 0),
        Offers::All => (5, 0, 0),
        Offers::Page { offset, limit } => (6, offset, limit),
    };
    let (from, to) = (journal.as_ptr(), out.as_mut_ptr());
    count(unsafe { raw::solgaverna_offers(from, journal.len(), list, a, b, to, out.len()) })
}

pub fn lender(journal: &[u8], account: u64) -> Result<[u64; 4], Refusal> {
    let mut out = [0; 4];
    let (from, to) = (journal.as_ptr(), out.as_mut_ptr());
    let answer = unsafe { raw::solgaverna_lender(from, journal.len(), account, to, out.len()) };
    count(answer).map(|_| out)
}

pub fn totals(journal: &[u8]) -> Result<[u64; 4], Refusal> {
    let mut out = [0; 4];
    let (from, to) = (journal.as_ptr(), out.as_mut_ptr());
    count(unsafe { raw::solgaverna_totals(from, journal.len(), to, out.len()) }).map(|_| out)
}

/// 13 is said of a line that is no question, and of a malformed journal.
pub fn ask(journal: &[u8], questions: &str, out: &mut [u8]) -> Result<usize, Refusal> {
    let (from, of, to) = (journal.as_ptr(), questions.as_ptr(), out.as_mut_ptr());
    let size = unsafe { raw::solgaverna_ask(from, journal.len(), of, questions.len(), to, out.len()) };
    line_first(count(size), questions)
}

/// A line that is no question is told before a malformed journal.
fn line_first(size: Result<usize, Refusal>, questions: &str) -> Result<usize, Refusal> {
    match size {
        Err(Refusal::Number(13)) => {
            match unsafe { raw::solgaverna_faulty_question(questions.as_ptr(), questions.len()) } {
                0 => size,
                line => Err(Refusal::Line(line)),
            }
        }
        size => size,
    }
}

pub fn answers(journal: &[u8], questions: &[[u64; 3]], out: &mut [[u64; 12]]) -> Result<usize, Refusal> {
    let (questions, out) = (questions.as_flattened(), out.as_flattened_mut());
    let (from, of, to) = (journal.as_ptr(), questions.as_ptr(), out.as_mut_ptr());
    count(unsafe { raw::solgaverna_answers(from, journal.len(), of, questions.len(), to, out.len()) })
}

pub fn snapshot(journal: &[u8], out: &mut [u8]) -> Result<usize, Refusal> {
    let (of, to) = (journal.as_ptr(), out.as_mut_ptr());
    count(unsafe { raw::solgaverna_snapshot(of, journal.len(), to, out.len()) })
}

/// 13 is said of a snapshot and of a journal: where the snapshot has a wrong field, that is told.
fn field_first(size: Result<usize, Refusal>, from: &[u8]) -> Result<usize, Refusal> {
    match size {
        Err(Refusal::Number(13)) => match unsafe { raw::solgaverna_faulty_snapshot(from.as_ptr(), from.len()) } {
            u64::MAX => size,
            at => Err(Refusal::Field(at)),
        },
        size => size,
    }
}

pub fn snapshot_from(from: &[u8], journal: &[u8], out: &mut [u8]) -> Result<usize, Refusal> {
    let (start, of, to) = (from.as_ptr(), journal.as_ptr(), out.as_mut_ptr());
    let size = unsafe { raw::solgaverna_snapshot_from(start, from.len(), of, journal.len(), to, out.len()) };
    field_first(count(size), from)
}

pub fn listing_from(from: &[u8], journal: &[u8], out: &mut [u8]) -> Result<usize, Refusal> {
    let (start, of, to) = (from.as_ptr(), journal.as_ptr(), out.as_mut_ptr());
    let size = unsafe { raw::solgaverna_listing_from(start, from.len(), of, journal.len(), to, out.len()) };
    field_first(count(size), from)
}

pub fn ask_from(from: &[u8], journal: &[u8], questions: &str, out: &mut [u8]) -> Result<usize, Refusal> {
    let (start, of, to) = (from.as_ptr(), journal.as_ptr(), out.as_mut_ptr());
    let (held, len, asked) = (from.len(), journal.len(), questions.len());
    let size = unsafe { raw::solgaverna_ask_from(start, held, of, len, questions.as_ptr(), asked, to, out.len()) };
    line_first(field_first(count(size), from), questions)
}
